"""The centres of examples/dask_batch.py, without a cluster: which files are taken, and how they are named."""

from __future__ import annotations

import io
import os
import sys
import tempfile
import types
import unittest
from contextlib import redirect_stdout
from pathlib import Path
from unittest import mock

import backoff
import lists

NAMES = ("Client", "Worker", "WorkerPlugin", "as_completed", "get_worker")


def example() -> types.ModuleType:
    """The example, with a stand-in for dask.distributed."""
    stand_in = types.SimpleNamespace(**{name: type(name, (), {}) for name in NAMES})
    with mock.patch.dict(sys.modules, {"distributed": stand_in}):
        sys.modules.pop("dask_batch", None)
        import dask_batch
    sys.modules.pop("dask_batch", None)
    return dask_batch


class LocalClient:
    """Grades at once, in this process."""

    def __init__(self, *_: object, **__: object) -> None:
        pass

    def __enter__(self) -> LocalClient:
        return self

    def __exit__(self, *_: object) -> None:
        pass


class Centres(unittest.TestCase):
    def setUp(self) -> None:
        folder = tempfile.TemporaryDirectory()
        self.addCleanup(folder.cleanup)
        self.folder = Path(folder.name)
        for name, text in (("north", "four five\n"), ("south", "nine\nfour\n")):
            (self.folder / name).mkdir()
            (self.folder / name / "sheet.txt").write_text(text)
        self.centres = [str(self.folder / name / "sheet.txt") for name in ("north", "south")]
        self.batch = example()

    def run_program(self, *arguments: str) -> list[list[str]]:
        """What the program prints, where sheets are graded here."""
        model = backoff.Model(lists.SAMPLE)

        def sheets_of(_: object, __: object, centres: list[str]) -> dict[str, backoff.Sheet]:
            return {centre: model.sheet(Path(centre).read_bytes().splitlines()) for centre in centres}

        printed = io.StringIO()
        patches = mock.patch.multiple(self.batch, Client=LocalClient, sheets_of=sheets_of)
        with patches, redirect_stdout(printed):
            self.batch.main([str(lists.SAMPLE), *arguments])
        return [line.split() for line in printed.getvalue().splitlines()]

    def test_apart_by_path(self) -> None:
        rows = self.run_program(*self.centres)
        self.assertEqual([row[0] for row in rows], ["centre", *self.centres, "all"])
        self.assertEqual([row[1] for row in rows[1:]], ["1", "2", "3"])

    def test_repeated_ones_count_once(self) -> None:
        link = self.folder / "link"
        link.symlink_to(self.centres[1])
        again = os.path.join(str(self.folder), "north", "..", "north", "sheet.txt")
        rows = self.run_program(*self.centres, self.centres[0], again, str(link))
        self.assertEqual(rows, self.run_program(*self.centres))

    def test_missing_ones_are_named(self) -> None:
        for missing, reason in ((str(self.folder / "west"), "No such file or directory"), (str(self.folder), "Is a directory")):
            with self.assertRaises(SystemExit) as caught:
                self.run_program(self.centres[0], missing)
            self.assertEqual(caught.exception.code, f"dask_batch.py: {missing}: {reason}")
        with self.assertRaises(SystemExit) as caught:
            self.batch.main(["no.array", self.centres[0]])
        self.assertEqual(caught.exception.code, "dask_batch.py: no.array: No such file or directory")


if __name__ == "__main__":
    unittest.main()
