"""The interface of the Python module, on the sample and on lists small enough to reckon by hand."""

from __future__ import annotations

import contextlib
import copy
import gc
import multiprocessing
import os
import pickle
import random
import signal
import tempfile
import unittest
from concurrent.futures import ThreadPoolExecutor
from decimal import Decimal
from pathlib import Path
from typing import Iterator

import backoff
import lists

SENTENCES = ["four five", "five four", "nine", "", "four nine five four"]


class Named(backoff.Model):
    """A class that is made of Model."""


def copies(thing: object) -> Iterator:
    """What copying and pickling make of it."""
    yield copy.copy(thing)
    yield copy.deepcopy(thing)
    for protocol in range(pickle.HIGHEST_PROTOCOL + 1):
        yield pickle.loads(pickle.dumps(thing, protocol))


def end_waiting(*_: object) -> None:
    raise TimeoutError("it waits for something that does not come")


@contextlib.contextmanager
def ends_in(seconds: int) -> Iterator[None]:
    """What waits longer, as for a writer of a pipe, fails."""
    before = signal.signal(signal.SIGALRM, end_waiting)
    signal.alarm(seconds)
    try:
        yield
    finally:
        signal.alarm(0)
        signal.signal(signal.SIGALRM, before)


class Sentences(unittest.TestCase):
    def setUp(self) -> None:
        self.model = backoff.Model(lists.SAMPLE)

    def test_points(self) -> None:
        self.assertEqual([self.model.points(sentence) for sentence in SENTENCES[:4]], [-6_500, -31_000, -33_000, -13_000])

    def test_points_are_whole_numbers(self) -> None:
        self.assertIs(type(self.model.points("four five")), int)

    def test_without_begin_and_end(self) -> None:
        points = {(bos, eos): self.model.points("four five", bos, eos) for bos in (True, False) for eos in (True, False)}
        expected = {(True, True): -6_500, (True, False): -5_000, (False, True): -10_500, (False, False): -9_000}
        self.assertEqual(points, expected)

    def test_full_points(self) -> None:
        expected = [(-4_000, 2, False), (-22_500, 1, True), (-9_000, 1, False), (-7_000, 1, False), (-12_000, 1, False)]
        self.assertEqual(list(self.model.full_points("four nine five four")), expected)

    def test_scores_are_points_divided(self) -> None:
        for sentence in SENTENCES:
            for bos in (True, False):
                for eos in (True, False):
                    points = list(self.model.full_points(sentence, bos, eos))
                    self.assertEqual(self.model.points(sentence, bos, eos), sum(p for p, _, _ in points))
                    self.assertEqual(self.model.score(sentence, bos, eos), sum(p for p, _, _ in points) / 1_000_000)
                    logs = [(p / 1_000_000, length, unknown) for p, length, unknown in points]
                    self.assertEqual(list(self.model.full_scores(sentence, bos, eos)), logs)

    def test_scores_have_all_digits(self) -> None:
        rng = random.Random(6)
        model = lists.model(lists.arpa(lists.random_rows(rng, 3, 30, 300)))
        sentence = " ".join(rng.choices([f"w{i}" for i in range(31)], k=1_200))
        points = model.points(sentence)
        self.assertLess(points, -1_000_000_000)
        self.assertNotEqual(points % 10, 0)
        self.assertEqual(Decimal(str(model.score(sentence))) * 1_000_000, points)

    def test_perplexity(self) -> None:
        self.assertAlmostEqual(self.model.perplexity("four five"), 10 ** (0.0065 / 3), places=12)
        self.assertAlmostEqual(self.model.perplexity(""), 10**0.013, places=12)

    def test_perplexity_of_the_worst_list(self) -> None:
        rows = {(word,): (-99_000_000, -99_000_000) for word in ("<unk>", "<s>", "</s>")}
        rows[("<s>", "<s>")] = (-99_000_000, 0)
        self.assertEqual(lists.model(lists.arpa(rows)).perplexity(""), 10.0**198)

    def test_text_or_bytes(self) -> None:
        self.assertEqual(self.model.points(b"four five"), -6_500)
        for blanks in (" ", "\t", "\r\n", "\v\f", "\0", "\0\0 "):
            sentence = f"{blanks}four{blanks}five{blanks}"
            self.assertEqual((self.model.points(sentence), self.model.explain(sentence).total), (-6_500, -6_500))
            self.assertEqual(self.model.perplexity(sentence), self.model.perplexity("four five"))
        self.assertEqual(self.model.points(b"four\xff five"), self.model.points("nine five"))
        self.assertEqual(self.model.points("four\u00a0five"), self.model.points("nine"))
        for wrong in (4, None, ["four"]):
            with self.assertRaises(TypeError):
                self.model.points(wrong)

    def test_marks_within_a_sentence(self) -> None:
        inner = list(self.model.full_points("four </s> four five"))
        self.assertEqual(inner, list(self.model.full_points("four")) + list(self.model.full_points("four five")))
        self.assertEqual(list(self.model.full_points("<s> four", False, False)), [(-990_000, 1, False), (-4_000, 2, False)])
        self.assertEqual(list(self.model.full_points("<unk>", False, False)), [(-20_000, 1, True)])

    def test_long_sentence(self) -> None:
        words = "four five nine ".split() * 22_000
        self.assertGreater(len(words), backoff.RUN_LIMIT)
        state, total = backoff.State(), 0
        self.model.BeginSentenceWrite(state)
        for word in words:
            total += self.model.BasePoints(state, word, state)
        total += self.model.BasePoints(state, "</s>", state)
        sentence = " ".join(words)
        full = list(self.model.full_points(sentence))
        self.assertEqual(self.model.points(sentence), total)
        self.assertEqual((len(full), sum(points for points, _, _ in full)), (len(words) + 1, total))


class Words(unittest.TestCase):
    def test_in(self) -> None:
        model = backoff.Model(lists.SAMPLE)
        known = {word: word in model for word in ("four", b"five", "<s>", "</s>", "<unk>", "nine", "", "four five")}
        self.assertEqual([word for word in known if known[word]], ["four", b"five", "<s>", "</s>"])

    def test_texts_of_any_bytes(self) -> None:
        words = ["ƒ", "日本語", "x" * 63, "\\end\\", "\u00a0"]
        rows = {(word,): (-10_000 * i, 0) for i, word in enumerate(["<unk>", "<s>", "</s>"] + words)}
        model = lists.model(lists.arpa(rows))
        self.assertEqual([model.points(word, False, False) for word in words], [-30_000, -40_000, -50_000, -60_000, -70_000])


class ModelItself(unittest.TestCase):
    def setUp(self) -> None:
        self.model = backoff.Model(lists.SAMPLE)

    def test_attributes(self) -> None:
        self.assertEqual(self.model.order, 3)
        self.assertEqual(self.model.path, os.path.abspath(lists.SAMPLE))
        self.assertEqual(repr(self.model), "<Model from sample.arpa>")
        self.assertIs(backoff.LanguageModel, backoff.Model)

    def test_copies_come_from_memory(self) -> None:
        with tempfile.TemporaryDirectory() as folder:
            path = os.path.join(folder, "pruned.arpa")
            pruned = lists.SAMPLE.read_bytes().replace(b"-0.003\tfour five\n", b"").replace(b"ngram 2=3", b"ngram 2=2")
            for replaced in (None, lists.arpa(lists.random_rows(random.Random(1), 2, 5, 20))):
                Path(path).write_bytes(pruned)
                model = Named(path, fill=True)
                model.name, expected = ["mine"], str(model.explain("four four five nine"))
                os.unlink(path)
                if replaced:
                    Path(path).write_bytes(replaced)
                for twin in copies(model):
                    self.assertIsInstance(twin, Named)
                    self.assertEqual((twin.name, twin.path), (["mine"], path))
                    self.assertEqual(str(twin.explain("four four five nine")), expected)
                    self.assertEqual(twin.sheet(["four five"]), model.sheet(["four five"]))

    def test_copies_outlive_the_model(self) -> None:
        twins = list(copies(lists.model(lists.SAMPLE.read_bytes())))
        gc.collect()
        filler = [bytes(1 << 16) for _ in range(50)]
        self.assertEqual([twin.points("four five") for twin in twins], [-6_500] * len(twins))
        self.assertEqual(len(filler), 50)

    def test_model_of_a_pipe(self) -> None:
        with tempfile.TemporaryDirectory() as folder:
            path = os.path.join(folder, "pipe")
            os.mkfifo(path)
            with ThreadPoolExecutor(1) as thread:
                written = thread.submit(Path(path).write_bytes, lists.SAMPLE.read_bytes())
                model = backoff.Model(path)
                written.result()
            with ends_in(20):
                self.assertEqual({twin.points("four five") for twin in copies(model)}, {-6_500})

    def test_forked(self) -> None:
        model = lists.model(lists.SAMPLE.read_bytes())
        self.assertFalse(os.path.exists(model.path))
        for method in ("fork", "spawn"):
            with ends_in(60), multiprocessing.get_context(method).Pool(1) as pool:
                self.assertEqual(pool.map(model.points, ["four five", "nine"]), [-6_500, -33_000])

    def test_configuration_is_not_taken_for_filling(self) -> None:
        with self.assertRaises(TypeError):
            backoff.Model(lists.SAMPLE, object())

    def test_threads_share_it(self) -> None:
        rng = random.Random(1)
        sentences = [" ".join(rng.choices(["four", "five", "nine"], k=2_000)) for _ in range(200)]
        alone = [(self.model.points(sentence), self.model.sheet([sentence])) for sentence in sentences]
        with ThreadPoolExecutor(8) as threads:
            together = list(threads.map(lambda sentence: (self.model.points(sentence), self.model.sheet([sentence])), sentences))
        self.assertEqual(together, alone)


class States(unittest.TestCase):
    def setUp(self) -> None:
        self.model = backoff.Model(lists.SAMPLE)

    def after(self, words: str) -> backoff.State:
        """The state after <s> and these words."""
        state = backoff.State()
        self.model.BeginSentenceWrite(state)
        for word in words.split():
            self.model.BaseScore(state, word, state)
        return state

    def test_steps(self) -> None:
        for bos, begin in ((True, self.model.BeginSentenceWrite), (False, self.model.NullContextWrite)):
            state, next_state, steps = self.after("four"), backoff.State(), []
            begin(state)
            for word in "four five nine four </s>".split():
                score = self.model.BaseScore(state, word, next_state)
                full = self.model.BaseFullScore(state, word, next_state)
                self.assertEqual(score, full.log_prob)
                self.assertEqual(self.model.BasePoints(state, word, next_state), round(1_000_000 * score))
                steps.append((full.log_prob, full.ngram_length, full.oov))
                state, next_state = next_state, state
            self.assertEqual(steps, list(self.model.full_scores("four five nine four", bos)))

    def test_in_state_is_kept(self) -> None:
        state, out = self.after("four"), backoff.State()
        self.model.BaseScore(state, "five", out)
        self.assertEqual((state, out), (self.after("four"), self.after("four five")))

    def test_equal_states(self) -> None:
        self.assertEqual(self.after("four five"), self.after("five five"))
        self.assertEqual(hash(self.after("four five")), hash(self.after("five five")))
        self.assertNotEqual(self.after("four"), self.after("five"))
        self.assertEqual(len({self.after(words) for words in ("four five", "five five", "nine five", "four")}), 2)

    def test_order(self) -> None:
        states = [self.after(words) for words in ("four", "nine", "five", "four five")]
        low, high = min(states), max(states)
        self.assertTrue(low < high and low <= high and high > low and not high < low)

    def test_which_argument_is_wrong(self) -> None:
        state, model = self.after("four"), self.model
        calls = [
            (lambda: model.BaseScore(None, "four", state), "in_state is a State, not NoneType"),
            (lambda: model.BaseScore(state, 4, state), "word is a str or bytes, not int"),
            (lambda: model.BasePoints(state, "four", (0,) * 9), "out_state is a State, not tuple"),
            (lambda: model.BaseFullScore(state, ["four"], state), "word is a str or bytes, not list"),
            (lambda: model.BeginSentenceWrite(model), "state is a State, not Model"),
            (lambda: model.NullContextWrite("state"), "state is a State, not str"),
            (lambda: model.score(None), "sentence is a str or bytes, not NoneType"),
        ]
        for call, told in calls:
            with self.assertRaises(TypeError) as caught:
                call()
            self.assertEqual(str(caught.exception), told)
        self.assertEqual(state, self.after("four"))

    def test_other_types(self) -> None:
        self.assertNotEqual(backoff.State(), (0,) * 9)
        with self.assertRaises(TypeError):
            backoff.State() < 0

    def test_copies_are_apart(self) -> None:
        state = self.after("four")
        for twin in copies(state):
            self.assertEqual(twin, state)
            self.model.BaseScore(twin, "five", twin)
            self.assertEqual(state, self.after("four"))

    def test_context(self) -> None:
        state = self.after("four")
        self.model.NullContextWrite(state)
        self.assertEqual(state, backoff.State())
        self.model.BeginSentenceWrite(state)
        self.assertEqual(state, self.after(""))

    def test_begin_is_not_shared(self) -> None:
        state = self.after("four")
        self.model.BaseScore(state, "five", state)
        self.assertEqual(self.model.points("four five"), -6_500)

    def test_end_of_a_sentence(self) -> None:
        self.assertEqual(self.after("four five </s>"), self.after(""))

    def test_state_of_a_longer_order(self) -> None:
        rows = {(text,): (-10_000, 0) for text in ("<unk>", "<s>", "</s>")}
        unigrams, state, out = lists.model(lists.arpa(rows)), self.after("four"), self.after("five")
        with self.assertRaises(backoff.Refused) as caught:
            unigrams.BaseScore(state, "w", out)
        self.assertEqual((caught.exception.number, caught.exception.place, caught.exception.path), (16, 0, None))
        self.assertEqual(str(caught.exception), "refused by 16: the state belongs to a model of another order")
        self.assertEqual((state, out), (self.after("four"), self.after("five")))


class Sheets(unittest.TestCase):
    def setUp(self) -> None:
        self.model = backoff.Model(lists.SAMPLE)

    def reckoned(self, sentences: list[str]) -> backoff.Sheet:
        """The sheet from the points and matched lengths of each word."""
        full = [list(self.model.full_points(sentence)) for sentence in sentences]
        words = [word for sentence in full for word in sentence]
        lengths = [length for _, length, _ in words]
        return backoff.Sheet(
            len(sentences),
            len(words) - len(sentences),
            sum(unknown for _, _, unknown in words),
            sum(points for points, _, _ in words),
            tuple(lengths.count(length) for length in range(1, 6)),
        )

    def test_sheet(self) -> None:
        self.assertEqual(self.model.sheet(["four five", "nine", ""]), backoff.Sheet(3, 3, 1, -52_500, (3, 2, 1, 0, 0)))
        self.assertEqual(self.model.sheet(iter(SENTENCES)), self.reckoned(SENTENCES))
        self.assertEqual(self.model.sheet([]), backoff.Sheet())

    def test_parts_add_up(self) -> None:
        rng = random.Random(2)
        sentences = [" ".join(rng.choices(["four", "five", "nine", "</s>"], k=rng.randint(0, 12))) for _ in range(300)]
        whole = self.model.sheet(sentences)
        self.assertEqual(whole, self.reckoned(sentences))
        cuts = [0] + sorted(rng.sample(range(300), 5)) + [300]
        parts = [self.model.sheet(sentences[first:end]) for first, end in zip(cuts, cuts[1:])]
        self.assertEqual(sum(parts, backoff.Sheet()), whole)

    def test_more_than_a_batch(self) -> None:
        short = ["four"] * 20 + [""] * 66_000
        self.assertEqual(self.model.sheet(short), self.reckoned(short))
        many = ["four five nine four five"] * 14_000
        self.assertEqual(self.model.sheet(many), self.reckoned(many))

    def test_a_batch_to_the_brim(self) -> None:
        full = ["four " * 65_534, "five", "nine", "four five"]
        self.assertEqual(self.model.sheet(full), self.reckoned(full))

    def test_sentences_longer_than_a_batch(self) -> None:
        sentences = ["four five", "nine four " * 40_000, "four", "five " * 65_536, ""]
        self.assertEqual(self.model.sheet(sentences), self.reckoned(sentences))

    def test_one_text_is_no_sheet(self) -> None:
        for text in ("four five", b"four five"):
            with self.assertRaises(TypeError):
                self.model.sheet(text)

    def test_sheets_add_to_sheets_alone(self) -> None:
        with self.assertRaises(TypeError):
            backoff.Sheet() + 1


if __name__ == "__main__":
    unittest.main()
