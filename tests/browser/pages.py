"""Tests of the page of `backoff explain --html`; tests/browser/run calls it with the program. The last line is 'N passed, M failed'."""

from __future__ import annotations

import random
import re
import subprocess
import sys
import tempfile
from pathlib import Path

import browser

PROGRAM = sys.argv[1]
WIDTHS = [320, 390, 673, 768, 1280]  # a small phone, a phone, paper of A4 between its margins, a tablet, a desk
EXAMPLES = Path("examples")
LONG_WORD = "Rindfleischetikettierungsueberwachungsaufgabenuebertragungsgesetz"[:63]


def explained(model: Path, text: str, *options: str) -> tuple[str, str]:
    """The page of a text, and what `explain` prints of it."""
    with tempfile.TemporaryDirectory() as folder:
        page = Path(folder, "page.html")
        command = [PROGRAM, "explain", str(model), *options]
        subprocess.run([*command, "--html", str(page)], input=text.encode(), check=True)
        ledger = subprocess.run(command, input=text.encode(), stdout=subprocess.PIPE, check=True).stdout
        return page.read_text(), ledger.decode()


def list_of(order: int, words: list[str]) -> str:
    """A list in which the words follow each other in one row of each length; back-offs are of both signs."""
    rows = [[(word,) for word in ["<unk>", "<s>", "</s>", *words]]]
    rows += [[tuple(words[:length])] for length in range(2, order + 1)]
    # A row needs the row without its first word, too.
    needed = [{row for longer in rows[length:] for row in windows(longer, length)} for length in range(1, order + 1)]
    rows = [sorted(set(row) | need) for row, need in zip(rows, needed)]
    lines = ["\\data\\"] + [f"ngram {length}={len(row)}" for length, row in enumerate(rows, 1)]
    for length, section in enumerate(rows, 1):
        lines += ["", f"\\{length}-grams:"]
        for place, row in enumerate(section):
            back_off = "" if length == order else f"\t{(-1) ** place * 12.345678}"
            lines.append(f"-{98.765432 - place}\t{' '.join(row)}{back_off}")
    return "\n".join([*lines, "", "\\end\\", ""])


def windows(rows: list[tuple[str, ...]], length: int) -> list[tuple[str, ...]]:
    """All stretches of so many words."""
    return [row[i : i + length] for row in rows for i in range(len(row) - length + 1)]


def pages(folder: Path) -> dict[str, tuple[str, str]]:
    """Pages of many kinds, by name."""
    rng = random.Random(1)
    example, text = EXAMPLES / "model.arpa", (EXAMPLES / "text.txt").read_text()
    long_words = [LONG_WORD[: 59 - i] + f"{i:04}" for i in range(5)]
    wide, marked = folder / "wide.arpa", folder / "marked.arpa"
    wide.write_text(list_of(5, long_words))
    marked.write_text(list_of(2, ["<b>bold</b>", "&amp;", "שלום", "مرحبا", "日本語", "e\u0301", "\U0001f600"]))
    known = ["the", "train", "is", "late", "early", "again", "tram"]
    many = " ".join(rng.choices(known, k=200))
    return {
        "one sentence": explained(example, text.splitlines()[1]),
        "two sentences": explained(example, text),
        "an empty text": explained(example, ""),
        "an empty sentence": explained(example, "\n"),
        "a sentence of 200 words": explained(example, many),
        "long words": explained(wide, " ".join(long_words * 2) + "\n" + "w" * 300),
        "marks and other writing": explained(marked, "<b>bold</b> &amp; שלום مرحبا 日本語 e\u0301 \U0001f600 <i>"),
        "without marks": explained(example, text, "--no-bos", "--no-eos"),
    }


def sentences_of(ledger: str) -> list[tuple[list[list[str]], str]]:
    """Of each sentence what the rows of each word add, with the word's points at the end, and the total."""
    sentences: list[tuple[list[list[str]], str]] = []
    for line in ledger.splitlines():
        ends = re.search(r"  +(-?\d+)(?:  +(-?\d+))?$", line)
        if line.startswith("sentence "):
            words: list[list[str]] = [[]]
        elif line.startswith("  ") and ends:
            words[-1].append(ends[1])
            if ends[2]:
                words[-1].append(ends[2])
                words.append([])
        elif line.startswith("total (log10 "):
            sentences.append((words[:-1], line.split()[-1]))
    return sentences


def expected_numbers(ledger: str) -> list[str]:
    """All points that the page shows, in its order: the total, words or sentences with their points, and the additions."""
    sentences = sentences_of(ledger)
    bodies = []
    for words, total in sentences:
        # One number needs no sum.
        additions = [number for word in words for number in (word if len(word) > 2 else word[:1])]
        bodies.append([word[-1] for word in words] + [total] + additions)
    whole = str(sum(int(total) for _, total in sentences))
    totals = [] if len(sentences) == 1 else [total for _, total in sentences] + [whole]
    return [whole] + totals + [number for body in bodies for number in body]


def faults(name: str, page: dict, ledger: str) -> list[str]:
    """What is wrong with a page in a window."""
    found = []
    if page["page"] > page["window"] or page["right"] > page["window"] + 0.5 or page["left"] < -0.5:
        found.append(f"wider than its window of {page['window']}: {page['page']}, from {page['left']} to {page['right']}")
    shown = [number.replace("\u2212", "-") for number in page["texts"].get("n", [])]
    expected = expected_numbers(ledger)
    if shown != expected:
        found.append(f"it shows {shown}, and explain prints {expected}")
    log = re.findall(r"\(log10 (-?[\d.]+)\)", ledger)[-1:] or ["0"]
    if f"a base-10 logarithm of {log[0]}" not in page["text"].replace("\u2212", "-"):
        found.append(f"the logarithm is not {log[0]}")
    return [f"{name}: {fault}" for fault in found]


def main() -> int:
    with tempfile.TemporaryDirectory() as folder:
        known = pages(Path(folder))
    windows_of = [(name, width) for name in known for width in WIDTHS]
    seen = browser.measured([(known[name][0], width) for name, width in windows_of])
    assert len(seen) == len(windows_of)
    failed = 0
    for (name, width), page in zip(windows_of, seen):
        found = faults(f"{name} at {width}", page, known[name][1])
        failed += bool(found)
        print(*(f"failed: {fault}" for fault in found), sep="\n", end="\n" if found else "")
    print(f"{len(seen) - failed} passed, {failed} failed")
    return int(failed > 0)


if __name__ == "__main__":
    sys.exit(main())
