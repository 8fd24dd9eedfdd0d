"""Every sentence of a text beside irstlm and beside the program backoff: lists, text and the program's answers are those that tests/irstlm/run left in target/irstlm."""

from __future__ import annotations

import math
import os
import re
import shutil
import subprocess
import tempfile
import unittest
from pathlib import Path

import backoff

FOLDER = Path("target/irstlm")
TEXT = FOLDER / "unseen.txt"
LISTS = {"trained": False, "pruned": True, "dropped": True}  # whether a list is to be filled
SEARCHED = os.environ["PATH"] + os.pathsep + "/usr/lib/irstlm/bin"

# p and two back-offs of a word are each rounded by half a point at most, and irstlm holds each in 24 bits: below 8 that is off by a quarter of a point at most.
ROUNDED = 3 * (0.5 + 0.25)
# What irstlm prints has two decimals.
TWO_DECIMALS = 0.005


def printed_by_irstlm(name: str) -> list[tuple[int, float, int]]:
    """Words, perplexity and unknown words of each sentence, and at the end of the whole text, by `compile-lm --eval`."""
    arpa = FOLDER / f"{name}.arpa"
    # irstlm shares the unknown word's probability among all words up to this number; one more than it knows leaves it whole.
    bound = int(re.search(r"^ngram *1= *(\d+)$", arpa.read_text(), re.MULTILINE)[1]) + 1
    command = ["compile-lm", str(arpa), f"--eval={TEXT}", "--sentence=yes", f"--dub={bound}"]
    environment = {**os.environ, "PATH": SEARCHED}
    printed = subprocess.run(command, env=environment, stdout=subprocess.PIPE, stderr=subprocess.DEVNULL, check=True, text=True).stdout
    found = re.findall(r"^%% (?:sent_)?Nw=(\d+) (?:sent_)?PP=([\d.]+) .*Noov=(\d+)", printed, re.MULTILINE)
    return [(int(words), float(perplexity), int(unknown)) for words, perplexity, unknown in found]


def sentences() -> list[str]:
    """The sentences of the text without their marks."""
    return [line[len("<s>") : -len("</s>")] for line in TEXT.read_text().splitlines()]


@unittest.skipUnless(TEXT.exists() and shutil.which("compile-lm", path=SEARCHED), "tests/irstlm/run makes what this test reads")
class Irstlm(unittest.TestCase):
    def assert_near(self, words: int, perplexity: float, unknown: int, irstlm: tuple[int, float, int]) -> None:
        self.assertEqual((words, unknown), (irstlm[0], irstlm[2]))
        points = math.log10(perplexity) * backoff.POINTS_PER_LOG
        low, high = (math.log10(irstlm[1] + side) * backoff.POINTS_PER_LOG for side in (-TWO_DECIMALS, TWO_DECIMALS))
        self.assertTrue(low - ROUNDED <= points <= high + ROUNDED, (perplexity, irstlm))

    def test_each_sentence(self) -> None:
        self.assertGreater(len(sentences()), 500)
        for name, fill in LISTS.items():
            model, printed = backoff.Model(FOLDER / f"{name}.form", fill=fill), printed_by_irstlm(name)[:-1]
            self.assertEqual(len(sentences()), len(printed))
            for sentence, irstlm in zip(sentences(), printed):
                unknown = sum(unknown for _, _, unknown in model.full_scores(sentence))
                with self.subTest(name=name, sentence=sentence):
                    self.assert_near(len(sentence.split()) + 1, model.perplexity(sentence), unknown, irstlm)

    def test_the_whole_text(self) -> None:
        for name, fill in LISTS.items():
            sheet = backoff.Model(FOLDER / f"{name}.form", fill=fill).sheet(sentences())
            words = sheet.words + sheet.sentences
            perplexity = 10.0 ** (-sheet.total / backoff.POINTS_PER_LOG / words)
            with self.subTest(name=name):
                self.assert_near(words, perplexity, sheet.unknown, printed_by_irstlm(name)[-1])


@unittest.skipUnless((FOLDER / "trained.totals").exists(), "tests/irstlm/run makes what this test reads")
class Program(unittest.TestCase):
    def test_each_sentence(self) -> None:
        for name in LISTS:
            totals = list(map(int, (FOLDER / f"{name}.totals").read_text().split()))
            model = backoff.Model(FOLDER / f"{name}.array")
            with self.subTest(name=name):
                self.assertEqual([model.points(sentence) for sentence in sentences()], totals)

    def test_array_files(self) -> None:
        for name, fill in LISTS.items():
            with tempfile.NamedTemporaryFile() as file, self.subTest(name=name):
                backoff.Model(FOLDER / f"{name}.form", fill=fill).save(file.name)
                self.assertEqual(Path(file.name).read_bytes(), (FOLDER / f"{name}.array").read_bytes())


if __name__ == "__main__":
    unittest.main()
