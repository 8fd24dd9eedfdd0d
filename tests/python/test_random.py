"""Random lists: the module beside the back-off rule written in Python, beside plain scoring, and through a saved array."""

from __future__ import annotations

import array
import ctypes
import os
import random
import tempfile
import unittest
from pathlib import Path
from typing import Iterator

import backoff
import lists

LISTS = 30
SENTENCES = 10
MOST_WORDS = 12


class PlainTotal(ctypes.Structure):
    """struct backoff_total"""

    _fields_ = [("number", ctypes.c_uint32), ("place", ctypes.c_uint32), ("total", ctypes.c_int64)]


def declare_plain() -> ctypes._CFuncPtr:
    slices = [ctypes.c_void_p, ctypes.c_size_t]
    call = ctypes.CDLL(os.environ["BACKOFF_LIBRARY"]).backoff_plain
    call.restype, call.argtypes = PlainTotal, slices + [ctypes.c_bool] + 3 * slices
    return call


PLAIN = declare_plain()


def table(rows: lists.Rows) -> tuple[array.array, dict[str, int]]:
    """The list as numbers in list order, and the numbers of its texts."""
    numbers = {text: i + 1 for i, text in enumerate(row[0] for row in rows if len(row) == 1)}
    ordered = sorted(([len(row)] + [numbers[word] for word in reversed(row)], row) for row in rows)
    items = array.array("i")
    for _, row in ordered:
        words = [numbers[word] for word in row]
        items.extend([len(row), *words, *[0] * (5 - len(row)), *rows[row]])
    return items, numbers


def plain(rows: lists.Rows, words: list[str], bos: bool) -> list[tuple[int, int, bool]]:
    """Points, matched length and unknown of each word by backoff_plain."""
    items, numbers = table(rows)
    given = array.array("I", [numbers.get(word, 0) for word in words])
    points, lengths = array.array("i", [0] * len(words)), array.array("B", [0] * len(words))
    answer = PLAIN(*items.buffer_info(), bos, *given.buffer_info(), *points.buffer_info(), *lengths.buffer_info())
    assert answer.number == 0, (answer.number, answer.place)
    return [(point, length & 7, bool(length & 8)) for point, length in zip(points, lengths)]


def each_list() -> Iterator[tuple[int, random.Random, lists.Rows]]:
    """Lists of every order, with their seeds, and generators that go on from there."""
    for seed in range(LISTS):
        rng = random.Random(seed)
        yield seed, rng, lists.random_rows(rng, 1 + seed % 5, rng.randint(1, 12), rng.randint(20, 150))


def pruned(rows: lists.Rows) -> lists.Rows:
    """The list without rows that end others and begin none; no back-off is above 0, so that none of them gets a p above 0."""
    kept = {row: (p, min(b, 0)) for row, (p, b) in rows.items()}
    for row in rows:
        if len(row) > 1 and any(longer[1:] == row for longer in kept) and not any(longer[:-1] == row for longer in kept):
            del kept[row]
    return kept


class RandomLists(unittest.TestCase):
    def test_beside_the_rule_and_plain_scoring(self) -> None:
        words_scored = 0
        for seed, rng, rows in each_list():
            with self.subTest(seed=seed):
                model = lists.model(lists.arpa(rows))
                self.assertEqual(model.order, max(map(len, rows)))
                for _ in range(SENTENCES):
                    sentence, bos = lists.sentence(rng, rows, MOST_WORDS), rng.random() < 0.7
                    words = sentence.split() + ["</s>"]
                    ours = list(model.full_points(sentence, bos))
                    self.assertEqual(ours, list(lists.scored(rows, words, bos)))
                    self.assertEqual(ours, plain(rows, words, bos))
                    words_scored += len(words)
        self.assertGreater(words_scored, 2 * LISTS * SENTENCES)

    def test_rows_in_any_order(self) -> None:
        for seed, rng, rows in each_list():
            with self.subTest(seed=seed):
                longer = [row for row in rows if len(row) > 1]
                rng.shuffle(longer)
                shuffled = {row: rows[row] for row in [row for row in rows if len(row) == 1] + longer}
                sentence = " ".join(lists.sentence(rng, rows, MOST_WORDS) for _ in range(SENTENCES))
                points = [lists.model(lists.arpa(each)).points(sentence) for each in (rows, shuffled)]
                self.assertEqual(points[0], points[1])

    def test_saved_and_read_again(self) -> None:
        with tempfile.TemporaryDirectory() as folder:
            path, copy = Path(folder, "array"), Path(folder, "copy")
            for seed, rng, rows in each_list():
                with self.subTest(seed=seed):
                    model = lists.model(lists.arpa(rows))
                    model.save(path)
                    again = backoff.Model(path)
                    again.save(copy)
                    self.assertEqual(path.read_bytes(), copy.read_bytes())
                    self.assertEqual(again.order, model.order)
                    sentences = [lists.sentence(rng, rows, MOST_WORDS) for _ in range(SENTENCES)]
                    self.assertEqual(list(map(again.points, sentences)), list(map(model.points, sentences)))
                    self.assertEqual(again.sheet(sentences), model.sheet(sentences))

    def test_equal_states_score_alike(self) -> None:
        pairs = 0
        for seed, rng, rows in each_list():
            with self.subTest(seed=seed):
                model = lists.model(lists.arpa(rows))
                met: dict[backoff.State, str] = {}
                rest = " ".join(lists.sentence(rng, rows, MOST_WORDS) for _ in range(3))
                count = len(rest.split()) + 1
                for _ in range(SENTENCES):
                    words, state = lists.sentence(rng, rows, 4), backoff.State()
                    model.BeginSentenceWrite(state)
                    for word in words.split():
                        model.BaseScore(state, word, state)
                    other = met.setdefault(state, words)
                    pairs += other != words
                    both = [list(model.full_points(f"{each} {rest}"))[-count:] for each in (words, other)]
                    self.assertEqual(both[0], both[1])
        self.assertGreater(pairs, LISTS)

    def test_filled(self) -> None:
        dropped = 0
        for seed, rng, rows in each_list():
            with self.subTest(seed=seed):
                kept = pruned(rows)
                dropped += len(rows) - len(kept)
                filled = lists.model(lists.arpa(kept), fill=True)
                for _ in range(SENTENCES):
                    sentence = lists.sentence(rng, rows, MOST_WORDS)
                    expected = [points for points, _, _ in lists.scored(kept, sentence.split() + ["</s>"], True)]
                    self.assertEqual([points for points, _, _ in filled.full_points(sentence)], expected)
        self.assertGreater(dropped, LISTS)


if __name__ == "__main__":
    unittest.main()
