"""What the pages and the module's text show of Python is run, and what the examples print is compared."""

from __future__ import annotations

import doctest
import importlib.util
import re
import subprocess
import sys
import unittest
from pathlib import Path

import backoff

PAGES = [Path("docs/python.md"), Path("README.md")]


def page_test(page: Path) -> doctest.DocTest:
    """The examples of a page; the marks of a block end what an example prints."""
    lines = ["" if line.startswith("```") else line for line in page.read_text().splitlines()]
    return doctest.DocTestParser().get_doctest("\n".join(lines), {}, str(page), str(page), 0)


class Pages(unittest.TestCase):
    def run_examples(self, tests: list[doctest.DocTest]) -> None:
        runner = doctest.DocTestRunner(verbose=False)
        for test in tests:
            runner.run(test)
        self.assertGreater(runner.tries, 0)
        self.assertEqual(runner.failures, 0)

    def test_pages(self) -> None:
        for page in PAGES:
            with self.subTest(page=page):
                self.run_examples([page_test(page)])

    def test_module(self) -> None:
        self.run_examples(doctest.DocTestFinder().find(backoff))


class Scale(unittest.TestCase):
    def test_seconds_follow_from_the_rates(self) -> None:
        page = Path("docs/scale.md").read_text()
        paper_words = int(re.search(r"a paper of (\d+) words", page)[1])
        rows = re.findall(r"^\| .* \| ([\d,]+) \| ([\d,]+) \|$", page, re.MULTILINE)
        self.assertEqual(len(rows), 6)
        for rate, seconds in rows:
            self.assertEqual(f"{1_000_000 * paper_words / int(rate.replace(',', '')):,.0f}", seconds)

    @unittest.skipUnless(importlib.util.find_spec("distributed"), "tests/python/install installs dask.distributed")
    def test_sizes(self) -> None:
        printed = subprocess.run([sys.executable, "bench/scale.py", "sizes"], stdout=subprocess.PIPE, text=True, check=True).stdout
        self.assertIn(printed, Path("docs/scale.md").read_text())


class Examples(unittest.TestCase):
    def test_readings(self) -> None:
        printed = subprocess.run([sys.executable, "examples/readings.py"], stdout=subprocess.PIPE, text=True, check=True).stdout
        self.assertEqual(printed, Path("examples/readings.stdout").read_text())


if __name__ == "__main__":
    unittest.main()
