"""examples/dask_batch.py on a local cluster of two worker processes: the sheets are those of one call, also where a worker is killed."""

from __future__ import annotations

import io
import os
import random
import signal
import tempfile
import time
import types
import unittest
from concurrent.futures import ThreadPoolExecutor
from contextlib import redirect_stdout, suppress
from pathlib import Path
from typing import Callable
from unittest import mock

import backoff
import lists

try:
    import dask_batch
    from distributed import Client, LocalCluster, Worker
except ImportError as error:
    raise unittest.SkipTest(f"{error} (tests/python/install installs it)")

CENTRES = 4
SENTENCES = 3_000
PART_BYTES = 4_096
MARK = b"held\n"
PATIENCE = 60  # seconds


class Logging(dask_batch.Grader):
    """Adds a line to a file for each array file that is loaded."""

    def __init__(self, path: str, loads: Path) -> None:
        super().__init__(path)
        self.loads = loads

    def setup(self, worker: Worker) -> None:
        super().setup(worker)
        with self.loads.open("a") as file:
            print(os.getpid(), file=file)


class Holding(Logging):
    """The first worker that meets the mark leaves its process number, as what a link says, and does not go on."""

    def __init__(self, path: str, loads: Path, held: Path) -> None:
        super().__init__(path, loads)
        self.held = held

    def setup(self, worker: Worker) -> None:
        super().setup(worker)
        self.model = types.SimpleNamespace(sheet=self.sheet, graded=self.model.sheet)

    def sheet(self, sentences: list[bytes]) -> backoff.Sheet:
        if MARK in sentences:
            with suppress(FileExistsError):
                self.held.symlink_to(str(os.getpid()))
                time.sleep(PATIENCE)
        return self.model.graded(sentences)


def wait_until(condition: Callable[[], bool]) -> None:
    end = time.monotonic() + PATIENCE
    while not condition() and time.monotonic() < end:
        time.sleep(0.01)


def kill_held(held: Path) -> int:
    """Kills the worker that is held, and gives its process number."""
    wait_until(held.is_symlink)
    process = int(os.readlink(held))
    os.kill(process, signal.SIGKILL)
    return process


class Cluster(unittest.TestCase):
    @classmethod
    def setUpClass(cls) -> None:
        temporary = tempfile.TemporaryDirectory()
        cls.addClassCleanup(temporary.cleanup)
        cls.cluster = LocalCluster(n_workers=2, threads_per_worker=1, dashboard_address=None)
        cls.addClassCleanup(cls.cluster.close)
        cls.client = Client(cls.cluster)
        cls.addClassCleanup(cls.client.close)
        rng = random.Random(5)
        rows = lists.random_rows(rng, 3, 50, 400)
        cls.array_file = os.path.join(temporary.name, "array")
        lists.model(lists.arpa(rows)).save(cls.array_file)
        cls.sentences = {}
        for i in range(CENTRES):
            sentences = [lists.sentence(rng, rows, 12).encode() + b"\n" for _ in range(SENTENCES)]
            sentences[SENTENCES // 2] = MARK
            centre = Path(temporary.name, f"centre-{i}")
            centre.write_bytes(b"".join(sentences))
            cls.sentences[str(centre)] = sentences

    def setUp(self) -> None:
        self.folder = Path(tempfile.mkdtemp(dir=os.path.dirname(self.array_file)))
        self.loads = self.folder / "loads"
        small_parts = mock.patch.object(dask_batch, "PART_BYTES", PART_BYTES)
        small_parts.start()
        self.addCleanup(small_parts.stop)
        model = backoff.Model(self.array_file)
        self.expected = {centre: model.sheet(sentences) for centre, sentences in self.sentences.items()}

    def test_parts(self) -> None:
        parts = list(dask_batch.parts(self.sentences))
        self.assertGreater(len(parts), 10 * CENTRES)
        for centre, sentences in self.sentences.items():
            self.assertEqual([line for each, lines in parts if each == centre for line in lines], sentences)

    def loaded(self) -> list[int]:
        """The processes that have loaded the array file, each as often as it did."""
        return sorted(map(int, self.loads.read_text().split()))

    def workers(self) -> list[int]:
        return sorted(self.client.run(os.getpid).values())

    def test_sheets(self) -> None:
        grader = Logging(self.array_file, self.loads)
        self.assertEqual(dask_batch.sheets_of(self.client, grader, list(self.sentences)), self.expected)
        self.assertEqual((len(self.loaded()), self.loaded()), (2, self.workers()))

    def test_worker_is_killed(self) -> None:
        held, before = self.folder / "held", self.workers()
        grader = Holding(self.array_file, self.loads, held)
        with ThreadPoolExecutor(1) as killer:
            killed = killer.submit(kill_held, held)
            sheets = dask_batch.sheets_of(self.client, grader, list(self.sentences))
        self.assertEqual(sheets, self.expected)
        wait_until(lambda: len(self.loaded()) == 3)
        self.client.wait_for_workers(2, timeout=PATIENCE)
        self.assertIn(killed.result(), before)
        self.assertEqual(self.loaded(), sorted([*self.workers(), killed.result()]))

    def test_program(self) -> None:
        printed = io.StringIO()
        with redirect_stdout(printed):
            dask_batch.main([self.array_file, *self.sentences, *self.sentences, "--scheduler", self.cluster.scheduler_address])
        rows = [line.split() for line in printed.getvalue().splitlines()]
        whole = backoff.Model(self.array_file).sheet(line for lines in self.sentences.values() for line in lines)
        sheets = {**self.expected, "all": whole}
        expected = [[name, sheet.sentences, sheet.words, sheet.unknown, sheet.total] for name, sheet in sheets.items()]
        self.assertEqual(rows, [["centre", "sentences", "words", "unknown", "points"]] + [list(map(str, row)) for row in expected])


if __name__ == "__main__":
    unittest.main()
