"""Readings side by side. Each part of a tape may have been one of several runs of words. Every reading goes on with each
of them from its own state. Two readings with equal states get the same points from there on, so the one with the lower
total is dropped. examples/grader.c does the same in C.

    PYTHONPATH=python python3 examples/readings.py [MODEL]
"""

from __future__ import annotations

import copy
import sys
from dataclasses import dataclass
from pathlib import Path
from typing import Iterable

import backoff

SAMPLE = Path(__file__).parent.parent / "tests" / "irstlm" / "sample.arpa"

# The runs of words that each part may have been. The fourth part is the end of a sentence. Behind it every reading has
# the state after <s>, so that one of them is kept, and the next sentence goes on from there.
TAPE = [
    ["four", "five", "nine"],
    ["five", "nine"],
    ["four", "four five"],
    ["</s>"],
    ["four </s>", "nine </s>"],
]


@dataclass(frozen=True)
class Reading:
    """The words of a reading, their points, how many are unknown, and the state after them."""

    words: list[str]
    points: int
    unknown: int
    state: backoff.State

    def __str__(self) -> str:
        return f"{self.points:8} points, {self.unknown} unknown: {' '.join(self.words)}"


def first_reading(model: backoff.Model) -> Reading:
    """The reading of no words, after <s>."""
    state = backoff.State()
    model.BeginSentenceWrite(state)
    return Reading([], 0, 0, state)


def extended(model: backoff.Model, reading: Reading, run: list[str]) -> Reading:
    """The reading with a run of words behind it."""
    state, points = copy.copy(reading.state), reading.points
    for word in run:
        points += model.BasePoints(state, word, state)
    unknown = sum(word not in model for word in run)
    return Reading(reading.words + run, points, reading.unknown + unknown, state)


def without_equal_states(readings: Iterable[Reading]) -> list[Reading]:
    """Of the readings with one state, the best."""
    kept: dict[backoff.State, Reading] = {}
    for reading in readings:
        if reading.state not in kept or kept[reading.state].points < reading.points:
            kept[reading.state] = reading
    return list(kept.values())


def main() -> None:
    model = backoff.Model(sys.argv[1] if len(sys.argv) > 1 else SAMPLE)
    readings = [first_reading(model)]
    for part in TAPE:
        longer = [extended(model, reading, run.split()) for reading in readings for run in part]
        readings = without_equal_states(longer)
        print(*longer, f"{len(readings)} kept", sep="\n")
    best = max(readings, key=lambda reading: reading.points)
    print("best", best, sep="\n")
    print(f"{model.points(' '.join(best.words), eos=False):8} points in one call")


if __name__ == "__main__":
    main()
