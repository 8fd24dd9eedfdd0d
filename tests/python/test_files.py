"""The files that a model is read from: ARPA files and array files, what is refused of them and in which words."""

from __future__ import annotations

import array
import os
import pickle
import random
import struct
import subprocess
import sys
import tempfile
import unittest
import zlib
from concurrent.futures import ThreadPoolExecutor
from pathlib import Path

import backoff
import lists

SAMPLE = lists.SAMPLE.read_bytes()
CASES = Path("tests/array-files.txt")


def refusal(data: bytes, fill: bool = False) -> backoff.Refused:
    """The refusal of a file with these bytes."""
    try:
        lists.model(data, fill)
    except backoff.Refused as refused:
        return refused
    raise AssertionError("the file was accepted")


class ArpaFiles(unittest.TestCase):
    def assert_refused(self, data: bytes, number: int, place: int, line: str | None = None, fill: bool = False) -> None:
        refused = refusal(data, fill)
        self.assertEqual((refused.number, refused.place, refused.line), (number, place, line))
        where = f" at line {place} ({line!r})" if line is not None else f" at row {place}" if place else ""
        self.assertEqual(str(refused), f"{refused.path}: refused by {number}{where}: {refused.words}")

    def edited(self, old: bytes, new: bytes) -> bytes:
        self.assertEqual(SAMPLE.count(old), 1)
        return SAMPLE.replace(old, new)

    def test_lines_not_in_form(self) -> None:
        self.assert_refused(b"", 17, 1, "")
        self.assert_refused(b"text of another kind\nand more\n", 17, 1, "text of another kind")
        self.assert_refused(SAMPLE.replace(b"\n", b"\r\n"), 17, 1, "\\data\\\r")
        self.assert_refused(self.edited(b"ngram 2=3", b"ngram  2=    3"), 17, 3, "ngram  2=    3")
        self.assert_refused(self.edited(b"-0.02\t<unk>", b"-0.02\t\xff x"), 17, 9, "-0.02\t\\xff x")
        self.assert_refused(SAMPLE[: SAMPLE.index(b"\n\n\\end")], 17, 19, "-0.001\t<s> four five")
        self.assert_refused(self.edited(b"\\end\\\n", b""), 17, 21, "")

    def test_marks_of_editors(self) -> None:
        self.assert_refused(b"\xef\xbb\xbf" + SAMPLE, 17, 1, "\ufeff\\data\\")
        self.assertIn("begins with a byte order mark; `backoff in-form`", refusal(b"\xef\xbb\xbf" + SAMPLE).words)
        self.assertIn("ends with a carriage return; `backoff in-form`", refusal(SAMPLE.replace(b"\n", b"\r\n")).words)
        self.assertIn("ends with a carriage return", refusal(self.edited(b"four five\n-0.004", b"four five\r\n-0.004")).words)
        self.assertIn("is not in form, or is missing; `backoff in-form`", refusal(self.edited(b"-0.02\t<unk>", b"-2e-2\t<unk>")).words)

    def test_words_and_counts(self) -> None:
        self.assert_refused(self.edited(b"four five\n-0.004", b"four six\n-0.004"), 18, 14, "-0.003\tfour six")
        self.assert_refused(self.edited(b"ngram 2=3", b"ngram 2=4"), 19, 18, "\\3-grams:")

    def test_rows(self) -> None:
        self.assert_refused(self.edited(b"-0.003\tfour five", b"0.003\tfour five"), 5, 8)
        self.assert_refused(self.edited(b"<s> four five", b"<s> four five\t0.5"), 6, 9)
        self.assert_refused(self.edited(b"-0.0015\tfive </s>", b"-0.0015\t<s> four"), 7, 7)
        self.assert_refused(self.edited(b"-0.003\tfour five", b"-0.003\tfive four"), 8, 9)
        self.assert_refused(SAMPLE.replace(b"<unk>", b"unknown"), 9, 0)

    def test_too_many_rows(self) -> None:
        for words, number, place, line in ((65_532, 0, 0, None), (65_533, 1, 0, None), (70_000, 15, 65_541, "0.000000\tw65533\t0.000000")):
            rows = {(text,): (0, 0) for text in ["<unk>", "<s>", "</s>"] + [f"w{i}" for i in range(words)]}
            with self.subTest(words=words):
                if number:
                    self.assert_refused(lists.arpa(rows), number, place, line)
                else:
                    self.assertIn("w65531", lists.model(lists.arpa(rows)))

    def test_filling(self) -> None:
        pruned = self.edited(b"-0.003\tfour five\n", b"").replace(b"ngram 2=3", b"ngram 2=2")
        self.assert_refused(pruned, 8, 8)
        self.assertIn("fill=True", str(refusal(pruned)))
        filled = lists.model(pruned, fill=True)
        expected = [(-4_000, 2, False), (-8_500, 1, False), (-11_000, 2, False), (-1_500, 2, False)]
        self.assertEqual(list(filled.full_points("four four five")), expected)
        self.assert_refused(pruned.replace(b"four\t-0.002", b"four\t0.95"), 5, 8, fill=True)
        self.assert_refused(SAMPLE.replace(b"<unk>", b"unknown"), 9, 0, fill=True)

    def test_no_file(self) -> None:
        with self.assertRaises(FileNotFoundError):
            backoff.Model("no such file")
        with self.assertRaises(IsADirectoryError):
            backoff.Model("tests")

    def test_file_without_an_end(self) -> None:
        told = "/dev/zero: refused: more than 67108864 bytes: no list of 65,535 rows, the most there may be, needs as many"
        # In a process of its own, which may not take all memory.
        code = "import backoff, resource; resource.setrlimit(resource.RLIMIT_AS, (1 << 30, 1 << 30)); backoff.Model('/dev/zero')"
        done = subprocess.run([sys.executable, "-c", code], text=True, capture_output=True)
        self.assertEqual(done.stderr.splitlines()[-1], f"backoff.Refused: {told}")

    def test_refusals_are_pickled(self) -> None:
        refused = refusal(self.edited(b"ngram 2=3", b"ngram 2=x"))
        again = pickle.loads(pickle.dumps(refused))
        self.assertIsInstance(again, OSError)
        self.assertEqual((str(again), vars(again)), (str(refused), vars(refused)))

    def test_damaged_texts(self) -> None:
        rng, accepted = random.Random(3), 0
        for _ in range(150):
            data = bytearray(SAMPLE)
            for _ in range(rng.randint(1, 3)):
                first = rng.randrange(len(data))
                data[first : first + rng.randint(0, 2)] = rng.choices(b"\n\t 0123456789.-=<>\\\x00\xff", k=rng.randint(0, 2))
            try:
                accepted += lists.model(bytes(data)).points("four five nine") < 0
            except backoff.Refused as refused:
                self.assertIn(refused.number, range(1, 20))
        self.assertGreater(accepted, 0)


def with_checksum(data: bytes) -> bytes:
    return data + struct.pack("<I", zlib.crc32(data))


def saved(model: backoff.Model) -> bytes:
    """The array file of a model."""
    with tempfile.TemporaryDirectory() as folder:
        model.save(Path(folder, "array"))
        return Path(folder, "array").read_bytes()


def unescaped(text: str) -> bytes:
    r"""Bytes of tests/array-files.txt: \xNN is a byte, and \ alone is nothing."""
    return text.encode("latin-1").decode("unicode_escape").encode("latin-1") if text != "\\" else b""


def edited_file(file: bytes, edits: str) -> bytes:
    """An array file as a line of tests/array-files.txt has it."""
    slots = struct.unpack_from("<I", file, 24)[0]
    head, numbers, texts, end = list(struct.unpack_from("<6I", file, 8)), array.array("i"), file[32 + 8 * slots : -4], []
    numbers.frombytes(file[32 : 32 + 8 * slots])
    base, check = numbers[:slots], numbers[slots:]
    for name, *values in map(str.split, edits.split(", ")):
        if name == "head":
            head[int(values[0])] = int(values[1])
        elif name == "texts":
            assert texts.count(unescaped(values[0])) == 1
            texts = texts.replace(*map(unescaped, values))
            head[5] = len(texts)
        elif name in ("base", "check"):
            (base if name == "base" else check)[int(values[0])] = int(values[1])
        elif name == "free":
            base += array.array("i", [0]) * int(values[0])
            check += array.array("i", [-(2**31)]) * int(values[0])
            head[4] = len(base)
        else:
            end.append((name, int(values[0])))
    data = with_checksum(b"backoff\n" + struct.pack("<6I", *head) + base.tobytes() + check.tobytes() + texts)
    for name, count in end:
        if name == "flip":
            data = data[:-count] + bytes([data[-count] ^ 1]) + data[len(data) - count + 1 :]
        else:
            data = data[:-count] if name == "shorten" else data + bytes(count)
    return data


class ArrayFiles(unittest.TestCase):
    def setUp(self) -> None:
        self.data = saved(backoff.Model(lists.SAMPLE))

    def assert_refused(self, data: bytes, words: str, number: int = 0) -> None:
        refused = refusal(data)
        self.assertIn(words, refused.words)
        by = f"refused by {number}" if number else "refused"
        self.assertEqual((refused.number, refused.place, refused.line), (number, 0, None))
        self.assertEqual(str(refused), f"{refused.path}: {by}: {refused.words}")

    def changed(self, place: int, value: int) -> bytes:
        """The file with another 32-bit number, and the checksum of it."""
        data = bytearray(self.data[:-4])
        struct.pack_into("<i", data, place, value)
        return with_checksum(bytes(data))

    def test_form(self) -> None:
        texts = b"".join(bytes([len(text)]) + text for text in (b"<unk>", b"<s>", b"</s>", b"four", b"five"))
        slots = (len(self.data) - 8 - 24 - len(texts) - 4) // 8
        self.assertEqual(self.data[:32], b"backoff\n" + struct.pack("<6I", 1, 3, 9, 5, slots, len(texts)))
        self.assertEqual(struct.unpack_from("<i", self.data, 32 + 4 * slots), (3 + 24,))
        self.assertEqual(struct.unpack_from("<i", self.data, 32 + 4), (9,))
        self.assertEqual(self.data[32 + 8 * slots :], texts + struct.pack("<I", zlib.crc32(self.data[:-4])))

    def test_fewest_slots(self) -> None:
        for seed in range(5):
            rows = lists.random_rows(random.Random(seed), 3, 20, 200)
            model = lists.model(lists.arpa(rows))
            slots, count = len(model._base), model._base[1]
            table, work = array.array("i", [0]) * (8 * count), array.array("I", [0]) * count
            unloaded = backoff._calls.backoff_unload(*model._slots, *table.buffer_info(), *work.buffer_info())
            self.assertEqual((unloaded.number, count), (0, len(rows)))
            base, check = model._base[:], model._check[:]
            build = backoff._calls.backoff_build
            built = build(*table.buffer_info(), *base.buffer_info(), *check.buffer_info(), *work.buffer_info())
            self.assertEqual((built.number, base, check), (0, model._base, model._check))
            del base[slots - 1], check[slots - 1]
            fewer = build(*table.buffer_info(), *base.buffer_info(), *check.buffer_info(), *work.buffer_info())
            self.assertEqual(fewer.number, 10)

    def test_another_first_line(self) -> None:
        refused = refusal(b"backofg\n" + self.data[8:])
        self.assertEqual((refused.number, refused.place, refused.line), (17, 1, "backofg"))

    def test_files_of_both(self) -> None:
        cases = [line.split(": ", 1) for line in CASES.read_text().splitlines() if not line.startswith("#")]
        self.assertGreater(len(cases), 40)
        for edits, told in cases:
            data = edited_file(self.data, edits)
            with self.subTest(edits=edits):
                if told.startswith("accepted"):
                    words = "four six" if "other texts" in told else "four five"
                    self.assertEqual((lists.model(data).points(words), saved(lists.model(data))[:32]), (-6_500, self.sizes(edits)))
                else:
                    answer = str(refusal(data)).split(": ", 1)[1]
                    self.assertTrue(answer.removeprefix("refused: ").startswith(told), answer)

    def sizes(self, edits: str) -> bytes:
        """The head that a model of this file is saved with: in the fewest slots."""
        return edited_file(self.data, edits.replace("free 7", "free 0"))[:32]

    def test_cut_or_longer(self) -> None:
        for length in range(8, len(self.data)):
            needed = 32 if length < 32 else len(self.data)
            self.assert_refused(self.data[:length], f"the array file is cut: {length} bytes are there, {needed} are needed")

    def test_heads_of_earlier_versions(self) -> None:
        head = 32 + 4 * struct.unpack_from("<I", self.data, 24)[0]
        for version, offset in ((1, 8), (2, 40), (3, 16)):
            for value in range(offset + 1, offset + 6):
                told = f"version {version} wrote it, so it has to be built again"
                self.assert_refused(self.changed(head, value), told, 11)
        for value in (3, 8, 14, 16, 22, 24, 30, 35, 40, 46, -(2**31), 2**31 - 1):
            self.assertNotIn("wrote it", str(refusal(self.changed(head, value))))

    def test_damaged_arrays(self) -> None:
        rng, accepted, numbers = random.Random(4), 0, set()
        for _ in range(600):
            data = bytearray(self.data[:-4])
            for _ in range(rng.randint(1, 2)):
                data[rng.randrange(8, len(data))] = rng.choice([0, 1, 8, 127, 128, 255, rng.randrange(256)])
            try:
                accepted += lists.model(with_checksum(bytes(data))).points("four five nine") < 0
            except backoff.Refused as refused:
                numbers.add(refused.number)
        self.assertEqual(numbers, {0, 11, 12})
        self.assertGreater(accepted, 0)


class Saving(unittest.TestCase):
    def setUp(self) -> None:
        folder = tempfile.TemporaryDirectory()
        self.addCleanup(folder.cleanup)
        self.folder = Path(folder.name)
        self.model = backoff.Model(lists.SAMPLE)
        self.bytes = saved(self.model)

    def names(self) -> list[str]:
        return sorted(os.listdir(self.folder))

    def test_own_source(self) -> None:
        source, link = self.folder / "source.arpa", self.folder / "link"
        source.write_bytes(SAMPLE)
        link.symlink_to(source)
        for path in (source, link):
            with self.assertRaises(backoff.Refused) as caught:
                backoff.Model(path).save(source)
            self.assertIn("take the place of the file that the model was read from", str(caught.exception))
        self.assertEqual((source.read_bytes(), self.names()), (SAMPLE, ["link", "source.arpa"]))
        source.unlink()
        self.model.save(source)
        self.assertEqual(source.read_bytes(), self.bytes)

    def test_full_disk(self) -> None:
        path = self.folder / "array"
        path.write_bytes(b"what was there")
        code = "import backoff, sys; backoff.Model(sys.argv[1]).save(sys.argv[2])"
        # As on a full disk: no file may grow.
        line = 'trap "" XFSZ; ulimit -f 0; exec "$@"'
        command = ["sh", "-c", line, "sh", sys.executable, "-c", code, str(lists.SAMPLE), str(path)]
        done = subprocess.run(command, text=True, capture_output=True)
        self.assertIn("File too large", done.stderr)
        self.assertIn(str(path), done.stderr)
        self.assertEqual((path.read_bytes(), self.names()), (b"what was there", ["array"]))

    def test_names_and_permissions(self) -> None:
        old, link = self.folder / "old", self.folder / "link"
        old.touch(0o600)
        link.symlink_to("old")
        self.model.save(link)
        self.assertEqual((old.read_bytes(), link.is_symlink(), old.stat().st_mode & 0o777), (self.bytes, True, 0o600))
        long_name = self.folder / ("a" * 255)
        self.model.save(long_name)
        self.assertEqual(long_name.read_bytes(), self.bytes)
        with self.assertRaises(FileNotFoundError):
            self.model.save(self.folder / "no folder" / "array")
        with self.assertRaises(IsADirectoryError):
            self.model.save(self.folder)
        self.assertEqual(len(self.names()), 3)

    def test_pipes(self) -> None:
        pipe = self.folder / "pipe"
        os.mkfifo(pipe)
        with ThreadPoolExecutor(1) as thread:
            read = thread.submit(pipe.read_bytes)
            self.model.save(pipe)
            self.assertEqual(read.result(), self.bytes)
        self.assertEqual(self.names(), ["pipe"])


if __name__ == "__main__":
    unittest.main()
