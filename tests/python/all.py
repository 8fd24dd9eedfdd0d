"""Runs all tests of this folder; tests/python/run calls it. The last line is 'N passed, M failed'."""

from __future__ import annotations

import os
import sys
import unittest


class Counting(unittest.TextTestResult):
    """Counts the tests that passed."""

    passed = 0

    def addSuccess(self, test: unittest.TestCase) -> None:
        super().addSuccess(test)
        self.passed += 1


def main() -> int:
    suite = unittest.defaultTestLoader.discover("tests/python")
    result = unittest.TextTestRunner(sys.stdout, verbosity=2, resultclass=Counting).run(suite)
    # A test may fail in several of its cases.
    failed = {getattr(test, "test_case", test).id() for test, _ in result.failures + result.errors}
    print(f"{result.passed} passed, {len(failed)} failed", flush=True)
    return int(len(failed) > 0 or result.passed == 0)


if __name__ == "__main__":
    # dask may report on its closing while Python ends, which would come behind the last line.
    os._exit(main())
