"""`Model.sentences` and `Model.largest_move`: beside every sentence scored alone, and every pair of them."""

from __future__ import annotations

import itertools
import random
import subprocess
import tempfile
import unittest
from pathlib import Path
from typing import Iterator, Optional

import backoff
import lists

PROGRAM = Path("target/cargo/release/backoff")


def each_list() -> Iterator[tuple[int, int, backoff.Model, list[str]]]:
    """A seed, how many words the sentences have, a model, and its words other than <s> and </s>."""
    for seed in range(24):
        rng = random.Random(seed)
        k = 1 + seed % 4
        count = rng.randint(0, (15, 9, 5, 3)[k - 1])
        rows = lists.random_rows(rng, 1 + seed % 5, count, 40)
        yield seed, k, lists.model(lists.arpa(rows)), ["<unk>"] + [f"w{i}" for i in range(count)]


def moved(sentences: list[backoff.ListedSentence]) -> backoff.Move:
    """The largest move, by looking at every pair."""
    largest = backoff.Move(0, None, None)
    for one, two in itertools.combinations(sentences, 2):
        if sum(a != b for a, b in zip(one.words, two.words)) == 1:
            distance = abs(one.total - two.total)
            if largest.first is None or distance > largest.distance:
                largest = backoff.Move(distance, one, two)
    return largest


class Listings(unittest.TestCase):
    def test_every_sentence(self) -> None:
        for seed, k, model, words in each_list():
            expected = [
                (number, sentence, model.points(" ".join(sentence)))
                for number, sentence in enumerate(itertools.product(words, repeat=k), 1)
            ]
            with self.subTest(seed=seed):
                self.assertEqual(model.sentences(k), expected)

    def test_every_pair(self) -> None:
        for seed, k, model, words in each_list():
            with self.subTest(seed=seed):
                self.assertEqual(model.largest_move(k), moved(model.sentences(k)))

    def test_sample(self) -> None:
        model = backoff.Model(lists.SAMPLE)
        self.assertEqual(model.sentences(1)[1], backoff.ListedSentence(number=2, words=("four",), total=-16_500))
        move = model.largest_move(2)
        self.assertEqual((move.distance, move.first.words, move.second.number), (30_000, ("four", "<unk>"), 6))

    def test_no_pair(self) -> None:
        rows = {(text,): (-10_000, 0) for text in ("<unk>", "<s>", "</s>")}
        model = lists.model(lists.arpa(rows))
        self.assertEqual(model.largest_move(3), (0, None, None))
        self.assertEqual(model.sentences(2), [(1, ("<unk>", "<unk>"), -30_000)])

    def test_refused(self) -> None:
        rows = {(text,): (-10_000, 0) for text in ["<unk>", "<s>", "</s>"] + [f"w{i}" for i in range(16)]}
        large, small = lists.model(lists.arpa(rows)), backoff.Model(lists.SAMPLE)
        for model, k in ((large, 1), (large, 4), (small, 0), (small, 5), (small, -1), (small, 2**32 + 2)):
            for call in (model.sentences, model.largest_move):
                with self.subTest(k=k), self.assertRaises(backoff.Refused) as caught:
                    call(k)
                self.assertEqual((caught.exception.number, caught.exception.place), (22, 0))
        with self.assertRaises(TypeError):
            small.sentences("2")


@unittest.skipUnless(PROGRAM.exists(), "cargo build makes the program")
class Program(unittest.TestCase):
    def printed(self, *arguments: str) -> list[list[str]]:
        printed = subprocess.run([str(PROGRAM), *arguments], stdout=subprocess.PIPE, text=True, check=True).stdout
        return [line.split("\t") for line in printed.splitlines()]

    def test_the_same_lines(self) -> None:
        def fields(sentence: Optional[backoff.ListedSentence]) -> list[str]:
            return [str(sentence.number), str(sentence.total), " ".join(sentence.words)]

        with tempfile.NamedTemporaryFile() as file:
            for seed, k, model, words in each_list():
                model.save(file.name)
                with self.subTest(seed=seed):
                    listed = [line[:3] for line in self.printed("sentences", file.name, str(k))]
                    self.assertEqual(listed, [fields(sentence) for sentence in model.sentences(k)])
                    move, lines = model.largest_move(k), self.printed("largest-move", file.name, str(k))
                    self.assertEqual(lines[0][0].split()[2], str(move.distance))
                    pair = [fields(sentence) for sentence in (move.first, move.second) if sentence]
                    self.assertEqual([line[:3] for line in lines[1:]] if pair else [], pair)


if __name__ == "__main__":
    unittest.main()
