"""The module beside the header and the shared library: sizes, limits, numbers, exported calls, and where the library is looked for."""

from __future__ import annotations

import array
import ast
import ctypes
import os
import re
import shutil
import subprocess
import sys
import tempfile
import unittest
from pathlib import Path

import backoff

HEADER = Path("include/backoff.h").read_text()
LIBRARY = os.environ["BACKOFF_LIBRARY"]
STRUCTURES = {
    "backoff_status": backoff._Status,
    "backoff_found": backoff._Found,
    "backoff_total": backoff._Total,
    "backoff_sheet": backoff._Sheet,
    "backoff_listing": backoff._Listing,
    "backoff_move": backoff._Move,
    "backoff_rows": backoff._Rows,
}
LIMITS = [
    "ROW_ITEMS",
    "STATE_LENGTH",
    "ORDER_LIMIT",
    "ROW_LIMIT",
    "WORD_LIMIT",
    "RUN_LIMIT",
    "SLOT_LIMIT",
    "RECORD_BYTES",
    "TEXT_LIMIT",
    "LISTING_LIMIT",
    "POINTS_PER_LOG",
    "ORDER_HEAD",
    "UNKNOWN_WORD",
    "START_WORD",
    "END_WORD",
    "UNKNOWN_LENGTH",
]
# Numbers that no call of the module gives: acceptance, the totals program's, and that of fragments.
OTHER_NUMBERS = {0, 13, 21}


def printed_by_c(expressions: list[str]) -> list[int]:
    """What C makes of expressions over the header."""
    prints = "".join(f'    printf("%ld\\n", (long)({each}));\n' for each in expressions)
    source = f'#include "backoff.h"\n#include <stdio.h>\nint main(void)\n{{\n{prints}    return 0;\n}}\n'
    with tempfile.TemporaryDirectory() as folder:
        program = os.path.join(folder, "sizes")
        subprocess.run(["cc", "-std=c99", "-Iinclude", "-x", "c", "-", "-o", program], input=source, text=True, check=True)
        return [int(line) for line in subprocess.run([program], stdout=subprocess.PIPE, check=True).stdout.split()]


class Header(unittest.TestCase):
    def test_structures(self) -> None:
        for name, structure in STRUCTURES.items():
            fields = [field for field, _ in structure._fields_]
            ours = [ctypes.sizeof(structure)]
            theirs = [f"sizeof(struct {name})"]
            for field in fields:
                ours += [getattr(structure, field).offset, getattr(structure, field).size]
                theirs += [f"offsetof(struct {name}, {field})", f"sizeof(((struct {name} *)0)->{field})"]
            with self.subTest(structure=name):
                self.assertEqual(ours, printed_by_c(theirs))

    def test_items_of_slices(self) -> None:
        sizes = printed_by_c([f"sizeof({kind})" for kind in ("int32_t", "uint32_t", "int64_t", "uint8_t")])
        self.assertEqual([array.array(kind).itemsize for kind in "iIqB"], sizes)

    def test_limits(self) -> None:
        self.assertEqual([getattr(backoff, name) for name in LIMITS], printed_by_c([f"BACKOFF_{name}" for name in LIMITS]))

    def test_each_number_has_words(self) -> None:
        numbers = re.search(r"enum backoff_number \{(.*?)\};", HEADER, re.DOTALL)
        given = {int(number) for number in re.findall(r"BACKOFF_\w+ = (\d+)", numbers[1])}
        self.assertEqual(set(backoff._REFUSALS), given - OTHER_NUMBERS)

    def test_arguments(self) -> None:
        for name, (_, arguments) in backoff._SIGNATURES.items():
            declared = re.search(rf"\b{name}\((.*?)\);", HEADER, re.DOTALL)[1].split(",")
            plain = {"bool": "c_bool", "uint32_t": "c_uint", "size_t": "c_size_t"}
            kinds = ["c_void_p" if "*" in each else plain[each.split()[0]] for each in declared]
            ours = [each.__name__.replace("c_char_p", "c_void_p").replace("c_ulong", "c_size_t") for each in arguments]
            with self.subTest(call=name):
                self.assertEqual(ours, kinds)


class Library(unittest.TestCase):
    def test_exports_the_calls_alone(self) -> None:
        listed = subprocess.run(["nm", "-D", "--defined-only", LIBRARY], stdout=subprocess.PIPE, text=True, check=True).stdout
        exported = {line.split()[-1] for line in listed.splitlines()}
        self.assertEqual(exported, set(re.findall(r"^struct \w+ (backoff_\w+)\(", HEADER, re.MULTILINE)))

    def imported(self, folder: Path, **environment: str) -> str:
        """Which library the module of a folder loads, or the end of what it says."""
        kept = {name: value for name, value in os.environ.items() if name not in ("BACKOFF_LIBRARY", "PYTHONPATH")}
        code = "import backoff; print(backoff._calls._name)"
        done = subprocess.run([sys.executable, "-c", code], cwd=folder, env={**kept, **environment}, text=True, capture_output=True)
        return (done.stdout or done.stderr).splitlines()[-1]

    def test_where_it_is_looked_for(self) -> None:
        with tempfile.TemporaryDirectory() as root:
            folder, beside, named = Path(root, "python"), Path(root, "python", "libbackoff.so"), Path(root, "other.so")
            in_prefix = Path(root, "lib", "libbackoff.so")
            folder.mkdir()
            in_prefix.parent.mkdir()
            shutil.copy("python/backoff.py", folder)
            self.assertRegex(self.imported(folder), "^ImportError: .*libbackoff.so.*python/make-library.*BACKOFF_LIBRARY")
            self.assertEqual(self.imported(folder, LD_LIBRARY_PATH=os.path.dirname(LIBRARY)), "libbackoff.so")
            shutil.copy(LIBRARY, in_prefix)
            self.assertTrue(os.path.samefile(self.imported(folder), in_prefix))
            shutil.copy(LIBRARY, beside)
            self.assertTrue(os.path.samefile(self.imported(folder), beside))
            shutil.copy(LIBRARY, named)
            self.assertEqual(self.imported(folder, BACKOFF_LIBRARY=str(named)), str(named))
            self.assertRegex(self.imported(folder, BACKOFF_LIBRARY="/no/such.so"), "^ImportError: /no/such.so")

    def test_another_library(self) -> None:
        self.assertRegex(self.imported(Path("python").absolute(), BACKOFF_LIBRARY="libc.so.6"), "^ImportError: .*backoff_arpa")


class Source(unittest.TestCase):
    def test_syntax_of_the_oldest_python(self) -> None:
        for path in ("python/backoff.py", "python/backend.py", "examples/readings.py", "examples/dask_batch.py"):
            ast.parse(Path(path).read_text(), feature_version=(3, 9))


if __name__ == "__main__":
    unittest.main()
