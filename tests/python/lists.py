"""Lists for the tests: the sample, random ones, their ARPA texts, and the back-off rule over them as document 01 has it."""

from __future__ import annotations

import random
import tempfile
from pathlib import Path
from typing import Iterator

import backoff

SAMPLE = Path("tests/irstlm/sample.arpa")

# From the words of a row, oldest first, to its points and its back-off.
Rows = dict[tuple[str, ...], tuple[int, int]]


def random_rows(rng: random.Random, order: int, words: int, tries: int) -> Rows:
    """A list of the order; each longer row is tried among those whose shorter rows are there."""
    texts = ["<unk>", "<s>", "</s>"] + [f"w{i}" for i in range(words)]
    rows: Rows = {(text,): (-rng.randint(0, 5_000_000), rng.randint(-900_000, 200_000) if order > 1 else 0) for text in texts}
    shorter = list(rows)
    for m in range(2, order + 1):
        longer: Rows = {}
        for _ in range(tries):
            first = rng.choice(shorter)
            ends = [row for row in shorter if row[:-1] == first[1:]]
            if ends:
                longer[first + rng.choice(ends)[-1:]] = (-rng.randint(0, 3_000_000), 0 if m == order else rng.randint(-900_000, 200_000))
        assert longer, "no longer row was drawn"
        rows.update(longer)
        shorter = list(longer)
    return rows


def log(points: int) -> str:
    """Points as a base-10 logarithm with all its decimals."""
    return f"{'-' if points < 0 else ''}{abs(points) // 1_000_000}.{abs(points) % 1_000_000:06}"


def arpa(rows: Rows) -> bytes:
    """A list as an ARPA text, row by row in the order of the dictionary."""
    sections = {m: [row for row in rows if len(row) == m] for m in range(1, max(map(len, rows)) + 1)}
    lines = ["\\data\\"] + [f"ngram {m}={len(section)}" for m, section in sections.items()]
    for m, section in sections.items():
        lines += ["", f"\\{m}-grams:"]
        lines += [f"{log(rows[row][0])}\t{' '.join(row)}\t{log(rows[row][1])}" for row in section]
    return "\n".join(lines + ["", "\\end\\", ""]).encode()


def model(data: bytes, fill: bool = False) -> backoff.Model:
    """The model of a file with these bytes."""
    with tempfile.NamedTemporaryFile(suffix=".file") as file:
        file.write(data)
        file.flush()
        return backoff.Model(file.name, fill=fill)


def rule(rows: Rows, history: tuple[str, ...], word: str) -> tuple[int, int]:
    """Points and matched length of a word that has a row, after a history."""
    if history + (word,) in rows:
        return rows[history + (word,)][0], len(history) + 1
    points, matched = rule(rows, history[1:], word)
    return rows.get(history, (0, 0))[1] + points, matched


def scored(rows: Rows, words: list[str], bos: bool) -> Iterator[tuple[int, int, bool]]:
    """Points, matched length and unknown of each word, by the rule and all words since the last </s>."""
    order = max(map(len, rows))
    history: tuple[str, ...] = ("<s>",) if bos else ()
    for word in words:
        known = word if (word,) in rows else "<unk>"
        yield *rule(rows, history[len(history) - min(order - 1, len(history)) :], known), known == "<unk>"
        history = ("<s>",) if known == "</s>" else history + (known,)


def sentence(rng: random.Random, rows: Rows, most: int) -> str:
    """Up to `most` words of the list, the marks among them, and of one that it lacks."""
    texts = [row[0] for row in rows if len(row) == 1] + ["unlisted"]
    return " ".join(rng.choices(texts, k=rng.randint(0, most)))
