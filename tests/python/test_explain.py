"""`Model.explain`, `Model.lookup` and `Model.plain_points`: beside rows that are tried here by the rule, and beside the program backoff."""

from __future__ import annotations

import pickle
import random
import subprocess
import tempfile
import unittest
from pathlib import Path
from typing import Iterator
from unittest import mock

import backoff
import lists

PROGRAM = Path("target/cargo/release/backoff")
LISTS = 30
SENTENCES = 6

LEDGER = """\
four
  <s> four         listed (line 15): p                     -4000   -4000
nine, scored as <unk>
  <s> four <unk>   not listed: b of "<s> four" (line 15)    -500
  four <unk>       not listed: b of "four" (line 10)       -2000
  <unk>            listed (line 9): p                     -20000  -22500
</s>
  four <unk> </s>  not listed, nor is "four <unk>": no b       0
  <unk> </s>       not listed: b of "<unk>" (line 9)           0
  </s>             listed (line 7): p                     -10000  -10000
total (log10 -0.0365)                                             -36500"""


def each_list() -> Iterator[tuple[int, random.Random, lists.Rows]]:
    """Lists of every order, with their seeds, and generators that go on from there."""
    for seed in range(LISTS):
        rng = random.Random(seed)
        yield seed, rng, lists.random_rows(rng, 1 + seed % 5, rng.randint(1, 12), rng.randint(20, 150))


def lines_of(text: bytes) -> dict[tuple[str, ...], int]:
    """The line of each row of an ARPA text."""
    lines = text.decode().split("\n")
    return {tuple(line.split("\t")[1].split(" ")): i + 1 for i, line in enumerate(lines) if "\t" in line}


def tried(rows: lists.Rows, lines: dict, history: tuple[str, ...], word: str) -> list[backoff.Tried]:
    """The rows of a word, by the rule."""
    row = history + (word,)
    if row in rows:
        return [backoff.Tried(row, "p", rows[row][0], lines[row])]
    if history in rows:
        first = backoff.Tried(row, "b", rows[history][1], lines[history])
    else:
        first = backoff.Tried(row, "none", 0, None)
    return [first] + tried(rows, lines, history[1:], word)


class Explain(unittest.TestCase):
    def setUp(self) -> None:
        self.model = backoff.Model(lists.SAMPLE)

    def test_text(self) -> None:
        self.assertEqual(str(self.model.explain("four nine")), LEDGER)
        self.assertEqual(str(self.model.explain("", eos=False)), "total (log10 0)  0")

    def test_fields(self) -> None:
        explanation = self.model.explain(b"four nine")
        self.assertEqual(explanation.total, -36_500)
        self.assertEqual([word.text for word in explanation.words], ["four", "nine", "</s>"])
        full = [(word.points, word.matched, word.unknown) for word in explanation.words]
        self.assertEqual(full, list(self.model.full_points("four nine")))
        self.assertEqual(explanation.words[1].tried[0], (("<s>", "four", "<unk>"), "b", -500, 15))
        self.assertEqual(pickle.loads(pickle.dumps(explanation)), explanation)

    def test_without_begin_and_end(self) -> None:
        explanation = self.model.explain("four </s> five", bos=False, eos=False)
        rows = [[t.row for t in word.tried] for word in explanation.words]
        self.assertEqual(rows, [[("four",)], [("four", "</s>"), ("</s>",)], [("<s>", "five"), ("five",)]])
        self.assertEqual(explanation.total, self.model.points("four </s> five", False, False))

    def test_words_that_are_no_text(self) -> None:
        self.assertEqual(self.model.explain(b"\xff").words[0].text, "\\xff")
        marked = "\ufefffour, which begins with a byte order mark, scored as <unk>"
        self.assertEqual(str(self.model.explain("\ufefffour").words[0]), marked)
        for wrong in (4, None, ["four"]):
            with self.assertRaises(TypeError):
                self.model.explain(wrong)

    def test_a_difference_is_told(self) -> None:
        for changed in ((-4_001, 2, False), (-4_000, 1, False), (-4_000, 2, True)):
            with mock.patch.object(backoff.Model, "full_points", return_value=[changed]):
                with self.assertRaisesRegex(RuntimeError, "a fault of this module"):
                    self.model.explain("four", eos=False)

    def test_beside_the_rule(self) -> None:
        for seed, rng, rows in each_list():
            text = lists.arpa(rows)
            model, lines = lists.model(text), lines_of(text)
            for _ in range(SENTENCES):
                sentence, bos, eos = lists.sentence(rng, rows, 12), rng.random() < 0.7, rng.random() < 0.7
                words = sentence.split() + ["</s>"] * eos
                history: tuple[str, ...] = ("<s>",) * bos
                expected = []
                for word in words:
                    known = word if (word,) in rows else "<unk>"
                    history = history[max(len(history) - model.order + 1, 0) :]
                    expected.append((word, tuple(tried(rows, lines, history, known)), known == "<unk>"))
                    history = ("<s>",) if word == "</s>" else history + (known,)
                explanation = model.explain(sentence, bos, eos)
                with self.subTest(seed=seed, sentence=sentence):
                    self.assertEqual([(word.text, word.tried, word.unknown) for word in explanation.words], expected)
                    self.assertEqual(explanation.total, model.points(sentence, bos, eos))

    def test_rows_without_lines(self) -> None:
        with tempfile.NamedTemporaryFile() as file:
            self.model.save(file.name)
            explanation = backoff.Model(file.name).explain("four nine")
        self.assertEqual({t.line for word in explanation.words for t in word.tried}, {None})
        self.assertRegex(str(explanation), '<s> four <unk> +not listed: b of "<s> four" +-500\n')
        text = lists.SAMPLE.read_bytes().replace(b"-0.003\tfour five\n", b"").replace(b"ngram 2=3", b"ngram 2=2")
        filled = lists.model(text, fill=True).explain("four four five", eos=False)
        self.assertEqual(filled.words[-1].tried[-1], (("four", "five"), "p", -11_000, 0))
        self.assertIn("listed (added): p", str(filled))


@unittest.skipUnless(PROGRAM.exists(), "cargo build makes the program")
class Program(unittest.TestCase):
    def explained(self, model: Path, sentence: str, *options: str) -> str:
        command = [str(PROGRAM), "explain", str(model), *options]
        return subprocess.run(command, input=sentence + "\n", stdout=subprocess.PIPE, text=True, check=True).stdout

    def test_the_same_text(self) -> None:
        with tempfile.TemporaryDirectory() as folder:
            arpa, saved = Path(folder, "arpa"), Path(folder, "array")
            for seed, rng, rows in each_list():
                arpa.write_bytes(lists.arpa(rows))
                model = backoff.Model(arpa)
                model.save(saved)
                sentence = lists.sentence(rng, rows, 12)
                for path in (arpa, saved):
                    with self.subTest(seed=seed, path=path):
                        first, rest = self.explained(path, sentence).split("\n", 1)
                        self.assertEqual(first, f"sentence 1: {sentence}")
                        self.assertEqual(rest, f"{backoff.Model(path).explain(sentence)}\n")


class Lookup(unittest.TestCase):
    def test_rows(self) -> None:
        for seed, rng, rows in each_list():
            model = lists.model(lists.arpa(rows))
            for row, (p, b) in rows.items():
                left = any(longer[1:] == row for longer in rows)
                self.assertEqual(model.lookup(" ".join(row)), (p, b, left))
                other = row[:-1] + (rng.choice(list(rows))[-1],)
                if other not in rows:
                    self.assertIsNone(model.lookup(" ".join(other)))

    def test_words(self) -> None:
        model = backoff.Model(lists.SAMPLE)
        self.assertEqual(model.lookup(b" <s>\tfour "), backoff.Row(p=-4_000, b=-500, left=False))
        self.assertIsNone(model.lookup("nine"))
        self.assertIsNone(model.lookup("four four four four four"))
        for words in ("", "four four four four four four"):
            with self.assertRaises(backoff.Refused) as caught:
                model.lookup(words)
            self.assertEqual(caught.exception.number, 14)
        with self.assertRaises(TypeError):
            model.lookup(["four"])


class PlainPoints(unittest.TestCase):
    def test_beside_runs(self) -> None:
        for seed, rng, rows in each_list():
            model = lists.model(lists.arpa(rows))
            for _ in range(SENTENCES):
                sentence, marks = lists.sentence(rng, rows, 12), (rng.random() < 0.5, rng.random() < 0.5)
                with self.subTest(seed=seed, sentence=sentence, marks=marks):
                    self.assertEqual(model.plain_points(sentence, *marks), model.points(sentence, *marks))

    def test_from_the_list_alone(self) -> None:
        model = backoff.Model(lists.SAMPLE)
        model._base, model._check, model._slots = None, None, (0, 0, 0, 0)
        self.assertEqual(model.plain_points("four nine"), -36_500)

    def test_of_an_array_file(self) -> None:
        with tempfile.NamedTemporaryFile() as file:
            backoff.Model(lists.SAMPLE).save(file.name)
            self.assertEqual(backoff.Model(file.name).plain_points("four nine"), -36_500)

    def test_longer_than_a_call(self) -> None:
        for order in range(1, 6):
            rng = random.Random(order)
            rows = lists.random_rows(rng, order, 6, 150)
            model = lists.model(lists.arpa(rows))
            texts = [row[0] for row in rows if len(row) == 1] + ["unlisted"]
            sentence = " ".join(rng.choices(texts, k=150_000))
            with self.subTest(order=order):
                self.assertEqual(model.plain_points(sentence), model.points(sentence))


if __name__ == "__main__":
    unittest.main()
