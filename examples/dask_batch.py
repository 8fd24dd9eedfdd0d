"""The sheets of many centres, graded on a cluster of dask.distributed (Debian's python3-distributed). A centre is a file
with a sentence on each line; it is named by its path, and one that is named twice is counted once. Each worker loads the array file once. Parts of the sheets go out as tasks, their sheets
come back and add up. A part whose worker dies is graded by another one.

    PYTHONPATH=python /usr/bin/python3 examples/dask_batch.py ARRAY_FILE CENTRE.. [--scheduler ADDRESS]

Without the address of a scheduler there are two worker processes on this machine. Every worker finds the array file
under the given path, and backoff.py with its library under its own PYTHONPATH. docs/scale.md has the figures.
"""

from __future__ import annotations

import argparse
import os
import sys
from itertools import islice
from typing import Iterable, Iterator, Sequence

import backoff
from distributed import Client, Worker, WorkerPlugin, as_completed, get_worker

PART_BYTES = 1 << 18  # about what a task's sentences have
PARTS_PER_THREAD = 3  # how many parts wait at the scheduler, or are graded, for each thread of the workers


class Grader(WorkerPlugin):
    """Loads the array file when a worker begins, also one that comes in place of a dead one. Its name is the file's path,
    so that programs with other array files may use the same cluster."""

    def __init__(self, path: str) -> None:
        self.name = os.path.abspath(path)

    def setup(self, worker: Worker) -> None:
        self.model = backoff.Model(self.name)


def grade(grader: str, sentences: list[bytes]) -> backoff.Sheet:
    """A task: the sheet of some sentences, by the model that the worker has loaded."""
    return get_worker().plugins[grader].model.sheet(sentences)


def parts(centres: Iterable[str]) -> Iterator[tuple[str, list[bytes]]]:
    """The sentences of all centres in parts, each with its centre."""
    for centre in centres:
        with open(centre, "rb") as file:
            while sentences := file.readlines(PART_BYTES):
                yield centre, sentences


def graded(client: Client, grader: Grader, centres: Iterable[str]) -> Iterator[tuple[str, backoff.Sheet]]:
    """The sheets of the parts with their centres, as they come back."""
    waiting, centre_of, running = parts(centres), {}, as_completed(with_results=True)

    def submit(count: int) -> None:
        for centre, sentences in islice(waiting, count):
            future = client.submit(grade, grader.name, sentences, pure=False)
            centre_of[future.key] = centre
            running.add(future)

    submit(PARTS_PER_THREAD * sum(client.nthreads().values()))
    for future, sheet in running:
        yield centre_of.pop(future.key), sheet
        submit(1)


def apart(centres: Sequence[str]) -> list[str]:
    """The centres without those whose file was named before, perhaps by another path."""
    files = {}
    for centre in centres:
        status = os.stat(centre)
        files.setdefault((status.st_dev, status.st_ino), centre)
    return list(files.values())


def sheets_of(client: Client, grader: Grader, centres: Sequence[str]) -> dict[str, backoff.Sheet]:
    """The sheet of each centre."""
    client.register_worker_plugin(grader)
    sheets = {centre: backoff.Sheet() for centre in centres}
    for centre, sheet in graded(client, grader, centres):
        sheets[centre] += sheet
    return sheets


def print_sheets(sheets: dict[str, backoff.Sheet]) -> None:
    """A line for each centre, and one for all of them."""
    rows = [*sheets.items(), ("all", sum(sheets.values(), backoff.Sheet()))]
    width = max(len("centre"), *(len(centre) for centre in sheets))
    print(f"{'centre':{width}} {'sentences':>10} {'words':>10} {'unknown':>10} {'points':>14}")
    for name, sheet in rows:
        print(f"{name:{width}} {sheet.sentences:10} {sheet.words:10} {sheet.unknown:10} {sheet.total:14}")


def main(arguments: Sequence[str] | None = None) -> None:
    parser = argparse.ArgumentParser(description="Grades the sheets of many centres on a cluster.")
    parser.add_argument("array_file")
    parser.add_argument("centres", nargs="+", metavar="CENTRE")
    parser.add_argument("--scheduler", metavar="ADDRESS")
    given = parser.parse_args(arguments)
    try:
        for path in [*given.centres] if given.scheduler else [given.array_file, *given.centres]:
            open(path, "rb").close()
        centres = apart(given.centres)
    except OSError as error:
        sys.exit(f"dask_batch.py: {error.filename}: {error.strerror}")
    local = {} if given.scheduler else {"n_workers": 2, "threads_per_worker": 1, "dashboard_address": None}
    with Client(given.scheduler, **local) as client:
        print_sheets(sheets_of(client, Grader(given.array_file), centres))


if __name__ == "__main__":
    main()
