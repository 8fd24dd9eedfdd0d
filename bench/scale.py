"""The figures of docs/scale.md: prints its two tables and what loading takes; with `sizes` the first table alone, which is
the same each time. The cluster is a local one of two worker processes.

    python/make-library && PYTHONPATH=python:examples /usr/bin/python3 bench/scale.py [sizes]
"""

from __future__ import annotations

import array
import itertools
import os
import pickle
import random
import statistics
import sys
import tempfile
import time
import tracemalloc
from typing import Callable, Iterator

import backoff
import dask_batch
from distributed import Client

ORDER = 3
WORDS = 12_000
FEW_PAPERS = 1_000
MANY = 20  # the cluster grades so many times the few papers
PAPER_SENTENCES = 20
SENTENCE_WORDS = 12
PAPER_WORDS = PAPER_SENTENCES * SENTENCE_WORDS
CENTRES = 4
PROTOCOL = 5  # of pickle, as dask has it
ROUNDS = 5
TEXTS = [f"word{i}" for i in range(WORDS)]
FREQUENCIES = list(itertools.accumulate(1 / (i + 1) for i in range(WORDS)))


def sentences(seed: int) -> Iterator[str]:
    """Sentences without an end, their words as frequent as those of a text."""
    rng = random.Random(seed)
    while True:
        yield " ".join(rng.choices(TEXTS, cum_weights=FREQUENCIES, k=SENTENCE_WORDS))


def arpa() -> str:
    """The list of a text: all its rows of up to three words, as long as there is room for those of a sentence."""
    rng = random.Random(1)
    sections: list[dict[str, None]] = [dict.fromkeys(["<unk>", "<s>", "</s>"]), {}, {}]
    for sentence in sentences(2):
        words = ["<s>", *sentence.split(), "</s>"]
        if sum(map(len, sections)) + ORDER * len(words) > backoff.ROW_LIMIT:
            break
        for m, section in enumerate(sections, 1):
            section.update(dict.fromkeys(" ".join(words[i : i + m]) for i in range(len(words) - m + 1)))
    lines = ["\\data\\"] + [f"ngram {m}={len(section)}" for m, section in enumerate(sections, 1)]
    for m, section in enumerate(sections, 1):
        lines.append(f"\\{m}-grams:")
        back_off = "" if m == ORDER else "\t-0.3"
        lines += [f"-{rng.randint(1, 5)}.{rng.randint(0, 9_999):04}\t{row}{back_off}" for row in section]
    return "\n".join(lines + ["\\end\\", ""])


def rate(words: int, call: Callable[[], object]) -> float:
    """Words for each second of the processor: the median of some rounds behind one that is not timed."""
    call()
    times = []
    for _ in range(ROUNDS):
        begin = time.process_time()
        call()
        times.append(time.process_time() - begin)
    return words / statistics.median(times)


def rates_of_one_process(model: backoff.Model, papers: list[str]) -> Iterator[tuple[str, float]]:
    """The ways to score, from the fewest calls to the most, each with its rate."""
    words = len(papers) * SENTENCE_WORDS
    numbers, ends = array.array("I"), array.array("I")
    for sentence in itertools.islice(papers, backoff.RUN_LIMIT // SENTENCE_WORDS):
        numbers += model._words(sentence)
        ends.append(len(numbers))
    yield "`backoff_batch` alone, words as numbers", rate(len(numbers), lambda: model._batch(numbers, ends))
    yield "`Model.sheet`", rate(words, lambda: model.sheet(papers))
    yield "`Model.points`, a call for each sentence", rate(words, lambda: [model.points(each) for each in papers])
    state = backoff.State()
    some = " ".join(papers[: 10 * PAPER_SENTENCES]).split()
    yield "`Model.BasePoints`, a call for each word", rate(len(some), lambda: [model.BasePoints(state, word, state) for word in some])


def rates_of_a_cluster(array_file: str, centres: list[str]) -> Iterator[tuple[str, float]]:
    """Words for each second of the workers' processors, and of that of client and scheduler."""
    with Client(n_workers=2, threads_per_worker=1, dashboard_address=None) as client:
        grader = dask_batch.Grader(array_file)
        dask_batch.sheets_of(client, grader, centres[:1])
        workers, own = sum(client.run(time.process_time).values()), time.process_time()
        whole = sum(dask_batch.sheets_of(client, grader, centres).values(), backoff.Sheet())
        own = time.process_time() - own
        workers = sum(client.run(time.process_time).values()) - workers
        yield "`dask_batch.py`, all of its workers together", whole.words / workers
        yield "`dask_batch.py`, its client and scheduler together", whole.words / own


def written_model(folder: str) -> tuple[backoff.Model, str]:
    """The model of the list, and the array file that was written of it."""
    list_file, array_file = os.path.join(folder, "list.arpa"), os.path.join(folder, "array")
    with open(list_file, "w") as file:
        file.write(arpa())
    model = backoff.Model(list_file)
    model.save(array_file)
    return model, array_file


def written_centres(folder: str, papers: list[str]) -> list[str]:
    """Files with the sentences of the papers."""
    centres = [os.path.join(folder, f"centre-{i}") for i in range(CENTRES)]
    for i, centre in enumerate(centres):
        with open(centre, "w") as file:
            file.writelines(sentence + "\n" for sentence in papers[i::CENTRES])
    return centres


def print_sizes(model: backoff.Model, array_file: str, centres: list[str], papers: int) -> None:
    sent = sum(map(os.path.getsize, centres)) / papers
    part = next(dask_batch.parts(centres))[1]
    print("| what | bytes |\n|---|--:|")
    print(f"| sent: a paper of {PAPER_WORDS} words | {sent:,.0f} |")
    print(f"| sent: a part of {len(part):,} sentences | {len(pickle.dumps(part, PROTOCOL)):,} |")
    print(f"| sent back: the sheet of a part | {len(pickle.dumps(model.sheet(part), PROTOCOL)):,} |")
    print(f"| kept by each worker: base and check of {model._base[1]:,} rows, {len(model._base):,} slots | {8 * len(model._base):,} |")
    print(f"| on each worker's disk: the array file, with {len(model._texts):,} texts | {os.path.getsize(array_file):,} |")


def print_rates(model: backoff.Model, array_file: str, centres: list[str], papers: list[str]) -> None:
    print("| way | words a second | seconds for a million papers |\n|---|--:|--:|")
    for name, words in [*rates_of_one_process(model, papers), *rates_of_a_cluster(array_file, centres)]:
        three_digits = float(f"{words:.3g}")
        print(f"| {name} | {three_digits:,.0f} | {1_000_000 * PAPER_WORDS / three_digits:,.0f} |")


def print_loading(array_file: str) -> None:
    begin = time.process_time()
    backoff.Model(array_file)
    seconds = time.process_time() - begin
    tracemalloc.start()
    model = backoff.Model(array_file)
    kept = tracemalloc.get_traced_memory()[0]
    tracemalloc.stop()
    print(f"Loading the array file takes {1e3 * seconds:.0f} milliseconds; a model of order {model.order} then keeps {kept / 1e6:.1f} megabytes, the texts among them.")


def main() -> None:
    few = list(itertools.islice(sentences(3), FEW_PAPERS * PAPER_SENTENCES))
    with tempfile.TemporaryDirectory() as folder:
        model, array_file = written_model(folder)
        print_sizes(model, array_file, written_centres(folder, few), FEW_PAPERS)
        if sys.argv[1:] != ["sizes"]:
            print()
            print_rates(model, array_file, written_centres(folder, MANY * few), few)
            print()
            print_loading(array_file)


if __name__ == "__main__":
    main()
