"""Back-off scoring of n-gram lists, with the interface of KenLM's Python module.

    >>> import backoff
    >>> model = backoff.Model("tests/irstlm/sample.arpa")
    >>> model.score("four five")
    -0.0065
    >>> model.points("four five")
    -6500
    >>> print(model.explain("five", eos=False))
    five
      <s> five  not listed: b of "<s>" (line 8)  -3000
      five      listed (line 11): p              -9000  -12000
    total (log10 -0.012)                                -12000

A point is 1/1,000,000 of a base-10 logarithm. `points` and its companions are exact whole numbers; `score` and its
companions are the same numbers divided by 1,000,000, as KenLM gives them. docs/python.md is the page of this module.

A `Model` is not changed after it was read, so threads may share it; each needs its own `State`. The calls give up the
interpreter's lock while they work.
"""

from __future__ import annotations

import array
import contextlib
import ctypes
import functools
import operator
import os
import stat
import struct
import zlib
from ctypes import c_bool, c_char_p, c_int32, c_int64, c_size_t, c_uint32, c_uint64, c_void_p
from dataclasses import dataclass
from typing import Callable, Iterable, Iterator, NamedTuple, Optional, Union

__version__ = "4.1.0"
__all__ = [
    "ExplainedWord",
    "Explanation",
    "FullScoreReturn",
    "LanguageModel",
    "ListedSentence",
    "Model",
    "Move",
    "Refused",
    "Row",
    "Sheet",
    "State",
    "Tried",
]

Text = Union[str, bytes]
Path = Union[str, "os.PathLike[str]"]

# Sizes and limits, as include/backoff.h has them.
ROW_ITEMS = 8
STATE_LENGTH = 9
ORDER_LIMIT = 5
ROW_LIMIT = 65_535
WORD_LIMIT = 65_535
RUN_LIMIT = 65_535
SLOT_LIMIT = 1_048_576
RECORD_BYTES = 64
TEXT_LIMIT = 63
LISTING_LIMIT = 65_536
POINTS_PER_LOG = 1_000_000
ORDER_HEAD = 24
UNKNOWN_WORD = 1
START_WORD = 2
END_WORD = 3
UNKNOWN_LENGTH = 8

MATCHED_LENGTH = 7  # the bits of a length byte that hold the matched length
RESERVED_TEXTS = (b"<unk>", b"<s>", b"</s>")  # the texts of words 1, 2 and 3
BYTE_LIMIT = 1 << 26  # the most bytes of a model's file; an accepted list fits in less than half of it
FREE_CHECK = -(2**31)  # the check of a slot that is free; its base is 0
UNLISTED_WORD = 0  # a number that no list has; it is scored as the unknown word
EARLIER_HEADS = {8: 1, 40: 2, 16: 3}  # what the arrays of earlier versions have as ORDER_HEAD, and the version

# The array file: this first line, the version and five sizes, base, check, the texts, and a CRC-32 of all before it.
FIRST_LINE = b"backoff\n"
VERSION = 1
_HEAD = struct.Struct("<8s6I")
_CHECKSUM = struct.Struct("<I")

_REFUSALS = {
    1: "the list has no rows, or more than 65,535, those that filling adds among them",
    2: "the array has fewer than 2 or more than 1,048,576 slots",
    3: "the row has no words, or more than 5",
    4: "a word of the row is outside 1 to 65,535",
    5: "the row's log-probability is outside -99 to 0, or that of a row which filling adds for it is",
    6: "the row's back-off is outside -99 to 99, or not 0 in a row of the longest section",
    7: "the row comes twice",
    8: "the row without its first or without its last word is missing; "
    "Model(path, fill=True) adds those that are a row without its first words",
    9: "<unk>, <s> or </s> has no row of one word",
    10: "the array of the list needs more than 1,048,576 slots",
    11: "the array's first two slots are not as this library builds them",
    12: "the array holds no list, or one of its slots was changed",
    14: "there are more than 65,535 words or sentences, or a lookup has no words or more than 5",
    15: "the list has more than 65,535 rows",
    16: "the state belongs to a model of another order",
    17: "the line of the ARPA text is not in form, or is missing; `backoff in-form` puts what estimators write in form",
    18: "a word of the line has no row of one word",
    19: "the section before this line has not as many lines as the text announces",
    20: "the end of a sentence is below the one before it, or past the words",
    22: "sentences of 1 to 4 words are listed, over at most 16 words other than <s> and </s>",
}
ARRAY_HEAD = 11
SHORT_SLICE = 15
ARPA_LINE = 17
_BYTE_ORDER_MARK = b"\xef\xbb\xbf"
_ROW_REFUSALS = range(3, 9)
_LINE_REFUSALS = (15, 17, 18, 19)


class Refused(OSError):
    """A file, or a state, that is not accepted. It is an OSError, as what KenLM raises where it cannot read a model.

    words   what is wrong, in words
    number  the number of the refusal in include/backoff.h; 0 where no call refused, as for an array file not in form
    place   the row (in list order) for the numbers 3 to 8, the line for 15 and 17 to 19; otherwise 0
    path    the file, where one was read
    line    the text of the line, where the place is one
    """

    def __init__(
        self, words: str, number: int = 0, place: int = 0, path: Optional[str] = None, line: Optional[str] = None
    ) -> None:
        super().__init__(words)
        self.words = words
        self.number = number
        self.place = place
        self.path = path
        self.line = line

    def __str__(self) -> str:
        where = "" if self.path is None else f"{self.path}: "
        by = f"refused by {self.number}" if self.number else "refused"
        if self.number in _ROW_REFUSALS:
            by += f" at row {self.place}"
        if self.line is not None:
            by += f" at line {self.place} ({self.line[:200]!r})"
        return f"{where}{by}: {self.words}"

    def __reduce__(self) -> tuple:
        return Refused, (self.words, self.number, self.place, self.path, self.line)


class _Status(ctypes.Structure):
    """struct backoff_status"""

    _fields_ = [("number", c_uint32), ("place", c_uint32)]


class _Found(ctypes.Structure):
    """struct backoff_found"""

    _fields_ = [
        ("number", c_uint32),
        ("place", c_uint32),
        ("found", c_uint32),
        ("p", c_int32),
        ("b", c_int32),
        ("left", c_uint32),
    ]


class _Total(ctypes.Structure):
    """struct backoff_total"""

    _fields_ = [("number", c_uint32), ("place", c_uint32), ("total", c_int64)]


class _Sheet(ctypes.Structure):
    """struct backoff_sheet"""

    _fields_ = [
        ("number", c_uint32),
        ("sentences", c_uint32),
        ("place", c_uint64),
        ("total", c_int64),
        ("words", c_uint32),
        ("unknown", c_uint32),
        ("matched", c_uint32 * ORDER_LIMIT),
    ]


class _Listing(ctypes.Structure):
    """struct backoff_listing"""

    _fields_ = [("number", c_uint32), ("place", c_uint32), ("sentences", c_uint32)]


class _Move(ctypes.Structure):
    """struct backoff_move"""

    _fields_ = [
        ("number", c_uint32),
        ("place", c_uint32),
        ("distance", c_int64),
        ("first", c_uint32),
        ("second", c_uint32),
    ]


class _Rows(ctypes.Structure):
    """struct backoff_rows"""

    _fields_ = [("number", c_uint32), ("rows", c_uint32), ("place", c_uint64)]


# A slice crosses as array.array's buffer_info gives it: an address, and the number of items.
_SLICE = [c_void_p, c_size_t]
_TEXT = [c_char_p, c_size_t]
_SIGNATURES = {
    "backoff_arpa": (_Rows, _TEXT + [c_bool] + 2 * _SLICE),
    "backoff_fill": (_Rows, 2 * _SLICE),
    "backoff_build": (_Status, 4 * _SLICE),
    "backoff_unload": (_Status, 4 * _SLICE),
    "backoff_lookup": (_Found, 3 * _SLICE),
    "backoff_start": (_Status, 3 * _SLICE),
    "backoff_run": (_Total, 6 * _SLICE),
    "backoff_batch": (_Sheet, 6 * _SLICE),
    "backoff_sentences": (_Listing, 2 * _SLICE + [c_uint32] + 2 * _SLICE),
    "backoff_largest_move": (_Move, 2 * _SLICE + [c_uint32] + 2 * _SLICE),
    "backoff_plain": (_Total, _SLICE + [c_bool] + 3 * _SLICE),
}
_LIBRARY = "libbackoff.so"


def _library_path() -> str:
    """BACKOFF_LIBRARY, or the library beside this file, or in ../lib, or what the system's loader finds by its name."""
    if "BACKOFF_LIBRARY" in os.environ:
        return os.environ["BACKOFF_LIBRARY"]
    folder = os.path.dirname(os.path.abspath(__file__))
    places = (os.path.join(folder, _LIBRARY), os.path.join(folder, os.pardir, "lib", _LIBRARY))
    return next(filter(os.path.exists, places), _LIBRARY)


def _load(path: str) -> ctypes.CDLL:
    """The library, with the types of the calls."""
    try:
        library = ctypes.CDLL(path)
        for name, (answer, arguments) in _SIGNATURES.items():
            call = getattr(library, name)
            call.restype, call.argtypes = answer, arguments
    except (OSError, AttributeError) as error:
        raise ImportError(f"{error}; python/make-library makes {_LIBRARY}, and BACKOFF_LIBRARY may name it") from error
    return library


_calls = _load(_library_path())


def _zeros(kind: str, count: int) -> array.array:
    """So many zeros, of a kind of array.array: i, I, q and B are int32_t, uint32_t, int64_t and uint8_t."""
    return array.array(kind, [0]) * count


def _split(sentence: Text) -> list[bytes]:
    """The words of a sentence: what stands between blanks, which are those of the command line."""
    return _bytes("sentence", sentence).replace(b"\0", b" ").split()


def _bytes(name: str, text: Text) -> bytes:
    """An argument as UTF-8; bytes are taken as they are."""
    if isinstance(text, str):
        return text.encode("utf-8")
    if isinstance(text, bytes):
        return text
    raise TypeError(f"{name} is a str or bytes, not {type(text).__name__}")


class _Contents(NamedTuple):
    """What a file holds: the list, its array, the texts of the words from 1 on, and the ARPA text, if it is one."""

    table: array.array
    base: array.array
    check: array.array
    texts: list[bytes]
    arpa: Optional[bytes]


def _shown(text: bytes) -> str:
    """Bytes as a text, also where they are not UTF-8."""
    return text.decode("utf-8", "backslashreplace")


def _log10(points: int) -> str:
    """Points as a base-10 logarithm, exactly."""
    whole, fraction = divmod(abs(points), POINTS_PER_LOG)
    return f"{'-' if points < 0 else ''}{whole}.{fraction:06}".rstrip("0").rstrip(".")


def _line(text: bytes, number: int) -> str:
    """A line of a text, numbered from 1; what follows the last line feed is one too."""
    return _shown(text.split(b"\n", number)[number - 1])


def _require(answer: ctypes.Structure, path: Optional[str] = None, text: bytes = b"") -> None:
    """Raises where a call refused; `text` is the one whose line the place may be."""
    number, place = answer.number, answer.place
    if number:
        line = _line(text, place) if number in _LINE_REFUSALS else None
        words = _REFUSALS[number]
        if number == ARPA_LINE and place == 1 and text.startswith(_BYTE_ORDER_MARK):
            words = "the text begins with a byte order mark; `backoff in-form` takes it away"
        elif number == ARPA_LINE and line.endswith("\r"):
            words = "the line ends with a carriage return; `backoff in-form` takes it away"
        raise Refused(words, number, place, path, line)


def _texts_of(store: array.array) -> Iterator[bytes]:
    """The texts of the words from 1 on, from the records that reading an ARPA text leaves."""
    data = store.tobytes()
    for record in range(RECORD_BYTES, len(data), RECORD_BYTES):
        if data[record] == 0:
            return
        yield data[record + 1 : record + 1 + data[record]]


def _read_arpa(path: str, text: bytes, fill: bool) -> _Contents:
    """The contents of an ARPA file; with `fill`, the rows that a pruned list lacks are added."""
    # Beyond the limit of rows there is room for one more, so that a list which has too many is refused.
    rows = min(text.count(b"\n"), ROW_LIMIT + 1)
    table, store = _zeros("i", ROW_ITEMS * rows), _zeros("B", RECORD_BYTES * (rows + 4))
    read = _calls.backoff_arpa(text, len(text), fill, *table.buffer_info(), *store.buffer_info())
    _require(read, path, text)
    del table[ROW_ITEMS * read.rows :]
    if fill:
        filled = _zeros("i", ROW_ITEMS * ROW_LIMIT)
        complete = _calls.backoff_fill(*table.buffer_info(), *filled.buffer_info())
        _require(complete, path)
        table = filled[: ROW_ITEMS * complete.rows]
    return _Contents(table, *_build(path, table), list(_texts_of(store)), text)


def _build(path: str, table: array.array) -> tuple[array.array, array.array]:
    """The double array of a list, in the fewest slots."""
    base, check = _zeros("i", SLOT_LIMIT), _zeros("i", SLOT_LIMIT)
    work = _zeros("I", len(table) // ROW_ITEMS)
    built = _calls.backoff_build(
        *table.buffer_info(), *base.buffer_info(), *check.buffer_info(), *work.buffer_info()
    )
    _require(built, path)
    return _cut(base, check)


def _cut(base: array.array, check: array.array) -> tuple[array.array, array.array]:
    """An array without the free slots behind the last one in use."""
    used, step = len(check), len(check)
    while step:
        free = array.array("i", [FREE_CHECK]) * step
        if step <= used and check[used - step : used] == free and not any(base[used - step : used]):
            used -= step
        else:
            step //= 2
    return base[:used], check[:used]


def _texts_fault(texts: list[bytes], words: int) -> Optional[str]:
    """What is wrong with the texts of an array file."""
    met: set[bytes] = set()
    for word, text in enumerate(texts, 1):
        in_form = 1 <= len(text) <= TEXT_LIMIT and min(text) > 0x20
        if not in_form or text in met or RESERVED_TEXTS[word - 1 : word] not in ((), (text,)):
            return f"word {word} has a text that it may not have: {repr(text)[1:]}"
        met.add(text)
    return None if len(texts) == words else f"the head says {words} words, but there are {len(texts)} texts"


def _texts_in(path: str, data: bytes, words: int) -> list[bytes]:
    """The texts of an array file, each behind one byte with its length."""
    texts, place, fault = [], 0, None
    while place < len(data):
        texts.append(data[place + 1 : place + 1 + data[place]])
        if len(texts[-1]) < data[place]:
            fault = f"the text of word {len(texts)} is cut"
            del texts[-1]
            break
        place += 1 + data[place]
    fault = _texts_fault(texts, len(texts) if fault else words) or fault
    if fault:
        raise Refused(fault, path=path)
    return texts


def _size_fault(sizes: tuple[int, ...]) -> Optional[str]:
    """What is wrong with the sizes in the head of an array file."""
    order, rows, words, slots, text_bytes = sizes
    limits = (
        ("order", order, 1, ORDER_LIMIT),
        ("number of rows", rows, len(RESERVED_TEXTS), ROW_LIMIT),
        ("number of words", words, len(RESERVED_TEXTS), WORD_LIMIT),
        ("number of slots", slots, 2, SLOT_LIMIT),
        ("number of text bytes", text_bytes, 2 * words, (1 + TEXT_LIMIT) * words),
    )
    faults = (each for each in limits if not each[2] <= each[1] <= each[3])
    return next((f"the head is broken: the {name} is {size}, not {low} to {high}" for name, size, low, high in faults), None)


def _array_file_fault(data: bytes) -> Optional[str]:
    """What is wrong with an array file, but for its array and its texts."""
    if len(data) < _HEAD.size:
        return f"the array file is cut: {len(data)} bytes are there, {_HEAD.size} are needed"
    _, version, *sizes = _HEAD.unpack_from(data)
    if version != VERSION:
        return f"an array file of format version {version}: this module reads version {VERSION}"
    fault = _size_fault(tuple(sizes))
    if fault is not None:
        return fault
    size = _HEAD.size + 8 * sizes[3] + sizes[4] + _CHECKSUM.size
    if len(data) < size:
        return f"the array file is cut: {len(data)} bytes are there, {size} are needed"
    if len(data) > size:
        return f"the file is too long: {len(data)} bytes, where its head says {size}"
    if _CHECKSUM.pack(zlib.crc32(data[: -_CHECKSUM.size])) != data[-_CHECKSUM.size :]:
        return "the checksum is not that of the bytes: some of them were changed"
    return None


def _earlier(head: int) -> str:
    """What is said of an array of an earlier version, by the number that it has as check[0]."""
    for offset, version in EARLIER_HEADS.items():
        if 1 <= head - offset <= ORDER_LIMIT:
            return f": version {version} wrote it, so it has to be built again from its ARPA file"
    return ""


def _unloaded(path: str, base: array.array, check: array.array, rows: int) -> array.array:
    """The list that an array holds."""
    table, work = _zeros("i", ROW_ITEMS * rows), _zeros("I", rows)
    unloaded = _calls.backoff_unload(
        *base.buffer_info(), *check.buffer_info(), *table.buffer_info(), *work.buffer_info()
    )
    if unloaded.number == ARRAY_HEAD:
        raise Refused(_REFUSALS[ARRAY_HEAD] + _earlier(check[0]), ARRAY_HEAD, 0, path)
    if unloaded.number == SHORT_SLICE or not unloaded.number and base[1] != rows:
        raise Refused(f"the head says {rows} rows, but the array has {base[1]}", path=path)
    _require(unloaded, path)
    return table


def _list_fault(table: array.array, order: int, words: int) -> Optional[str]:
    """What the head of an array file says wrongly of the list."""
    if table[-ROW_ITEMS] != order:
        return f"the head says order {order}, but the array has order {table[-ROW_ITEMS]}"
    listed = [word for m, word in zip(table[::ROW_ITEMS], table[1::ROW_ITEMS]) if m == 1]
    if listed != list(range(1, words + 1)):
        return f"the file has texts for {words} words, but the array has other words than 1 to {words}"
    return None


def _read_array_file(path: str, data: bytes) -> _Contents:
    """The contents of an array file; unloading the array tells whether it holds a list."""
    fault = _array_file_fault(data)
    if fault is not None:
        raise Refused(fault, path=path)
    _, _, order, rows, words, slots, _ = _HEAD.unpack_from(data)
    base, check = array.array("i"), array.array("i")
    checks, texts_start = _HEAD.size + 4 * slots, _HEAD.size + 8 * slots
    base.frombytes(data[_HEAD.size : checks])
    check.frombytes(data[checks:texts_start])
    base, check = _cut(base, check)
    texts = _texts_in(path, data[texts_start : -_CHECKSUM.size], words)
    table = _unloaded(path, base, check, rows)
    fault = _list_fault(table, order, words)
    if fault is not None:
        raise Refused(fault, path=path)
    return _Contents(table, base, check, texts, None)


def _read(path: str) -> bytes:
    """The bytes of a model's file."""
    with open(path, "rb") as file:
        data = file.read(BYTE_LIMIT + 1)
    if len(data) > BYTE_LIMIT:
        words = f"more than {BYTE_LIMIT} bytes: no list of 65,535 rows, the most there may be, needs as many"
        raise Refused(words, path=path)
    return data


def _write(path: Path, data: bytes) -> None:
    """Writes a file under another name beside it and renames it, so that there is never half a file.

    What is no regular file, as a pipe or a device, is written as it is. A file that is replaced hands its permissions on.
    """
    if os.path.exists(path) and not os.path.isfile(path):
        with open(path, "wb") as file:
            file.write(data)
        return
    target = os.path.realpath(path)
    part = os.path.join(os.path.dirname(target), f".backoff.{os.urandom(8).hex()}.part")
    try:
        with open(part, "xb") as file:
            if os.path.exists(target):
                os.chmod(part, stat.S_IMODE(os.stat(target).st_mode))
            file.write(data)
            file.flush()
            os.fsync(file.fileno())
        os.replace(part, target)
    except BaseException as error:
        with contextlib.suppress(OSError):
            os.unlink(part)
        if isinstance(error, OSError):
            error.filename, error.filename2 = os.fspath(path), None
        raise


@functools.total_ordering
class State:
    """What is kept of the words before, as KenLM's State. It belongs to the model that wrote it.

    Two readings with equal states over one model get the same points whatever follows. States compare by ==, < and so
    on, have a hash, and may be copied and pickled. A State is the one without context until a model writes it.
    """

    __slots__ = ("_numbers",)

    def __init__(self) -> None:
        self._numbers = _zeros("i", STATE_LENGTH)

    def __eq__(self, other: object) -> bool:
        if not isinstance(other, State):
            return NotImplemented
        return self._numbers == other._numbers

    def __lt__(self, other: object) -> bool:
        if not isinstance(other, State):
            return NotImplemented
        return self._numbers < other._numbers

    def __hash__(self) -> int:
        return hash(self._numbers.tobytes())

    def __copy__(self) -> State:
        state = State()
        state._numbers = self._numbers[:]
        return state

    def __reduce_ex__(self, protocol: int) -> tuple:
        """The earlier protocols know no __slots__."""
        return super().__reduce_ex__(max(protocol, 2))


def _require_state(name: str, state: object) -> None:
    """Raises where an argument is no State."""
    if not isinstance(state, State):
        raise TypeError(f"{name} is a State, not {type(state).__name__}")


class FullScoreReturn(NamedTuple):
    """The answer of `Model.BaseFullScore`."""

    log_prob: float
    ngram_length: int
    oov: bool


@dataclass(frozen=True)
class Sheet:
    """The sheet of many sentences: the fields of struct backoff_sheet. Sheets of parts add up: `sum(parts, Sheet())`.

    sentences  how many there are
    words      their words, without the closing </s>
    unknown    how many of the words are unknown
    total      the points of all words, the closing </s> among them
    matched    how many words had the matched length 1, 2, 3, 4 and 5, the closing </s> among them
    """

    sentences: int = 0
    words: int = 0
    unknown: int = 0
    total: int = 0
    matched: tuple[int, ...] = (0,) * ORDER_LIMIT

    def __add__(self, other: Sheet) -> Sheet:
        if not isinstance(other, Sheet):
            return NotImplemented
        return Sheet(
            self.sentences + other.sentences,
            self.words + other.words,
            self.unknown + other.unknown,
            self.total + other.total,
            tuple(map(int.__add__, self.matched, other.matched)),
        )


class Row(NamedTuple):
    """The answer of `Model.lookup`.

    p     the row's log-probability, in points
    b     its back-off, in points
    left  whether some row puts a further word in front of it
    """

    p: int
    b: int
    left: bool


class ListedSentence(NamedTuple):
    """A sentence of `Model.sentences`: its number in the listing, from 1, its words, and its points."""

    number: int
    words: tuple[str, ...]
    total: int


class Move(NamedTuple):
    """The answer of `Model.largest_move`: a distance in points, and the two sentences; None where there is no pair."""

    distance: int
    first: Optional[ListedSentence]
    second: Optional[ListedSentence]


class Tried(NamedTuple):
    """A row that was tried for a word.

    row     its words, oldest first
    added   "p", if the row is listed: its p, and nothing further is tried; "b", if it is not: the b of its words but the
            last; "none", if these are not listed either
    points  what is added; 0 for "none"
    line    the line of the row whose p or b it is; 0 for a row that filling added; None for "none" and for array files
    """

    row: tuple[str, ...]
    added: str
    points: int
    line: Optional[int]

    def __str__(self) -> str:
        """Whether the row is listed, and what is added."""
        place = "" if self.line is None else f" (line {self.line})" if self.line else " (added)"
        history = " ".join(self.row[:-1])
        if self.added == "p":
            return f"listed{place}: p"
        return f'not listed: b of "{history}"{place}' if self.added == "b" else f'not listed, nor is "{history}": no b'


@dataclass(frozen=True)
class ExplainedWord:
    """A word, and how its points are added up.

    text     the word as it was given
    tried    the rows that were tried, longest first
    unknown  whether it is scored as <unk>
    """

    text: str
    tried: tuple[Tried, ...]
    unknown: bool

    @property
    def points(self) -> int:
        """The sum of what is added."""
        return sum(tried.points for tried in self.tried)

    @property
    def matched(self) -> int:
        """The number of words in the row whose p was used."""
        return len(self.tried[-1].row)

    def __str__(self) -> str:
        marked = ", which begins with a byte order mark" if self.text.startswith("\ufeff") else ""
        scored_as = ", scored as <unk>" if self.unknown and self.text != "<unk>" else ""
        return self.text + marked + scored_as


@dataclass(frozen=True)
class Explanation:
    """How the points of a sentence are added up, word by word. As a text it is what `backoff explain` prints."""

    words: tuple[ExplainedWord, ...]

    @property
    def total(self) -> int:
        """The points of the sentence."""
        return sum(word.points for word in self.words)

    def __str__(self) -> str:
        rows = [(" ".join(tried.row), str(tried), str(tried.points)) for word in self.words for tried in word.tried]
        row, note, added = (max((len(texts[i]) for texts in rows), default=0) for i in range(3))
        sums = max(len(str(points)) for points in [self.total, *(word.points for word in self.words)])
        lines = []
        for word in self.words:
            lines.append(str(word))
            for tried in word.tried:
                lines.append(f"  {' '.join(tried.row):<{row}}  {tried!s:<{note}}  {tried.points:>{added}}")
            lines[-1] += f"  {word.points:>{sums}}"
        total, points = f"total (log10 {_log10(self.total)})", str(self.total)
        gap = max(2 + row + 2 + note + 2 + added + 2 + sums - len(total) - len(points), 2)
        return "\n".join([*lines, total + gap * " " + points])


class Model:
    """An n-gram list for scoring.

    `path` is an ARPA file, or an array file that `save` or the command `backoff build` wrote. With `fill`, an ARPA file
    may be a pruned one that lacks rows without their first words; they are added, and no word's points change.

    A sentence is a str or bytes; its words are parted by blanks: space, tab, line feed, carriage return, vertical tab,
    form feed and the byte 0. A word that the list lacks is scored as <unk>.
    <s> within a sentence is a word as any other. </s> within a sentence ends it, and what follows is scored after <s>
    alone; in KenLM it is a word as any other.
    """

    def __init__(self, path: Path, *, fill: bool = False) -> None:
        self.path = os.path.abspath(os.fspath(path))
        data = _read(self.path)
        if data.startswith(FIRST_LINE):
            contents = _read_array_file(self.path, data)
        else:
            contents = _read_arpa(self.path, data, fill)
        self._table, self._base, self._check, self._texts, self._arpa = contents
        self._slots = self._base.buffer_info() + self._check.buffer_info()
        # Where two words have one text, it is the first one's.
        self._numbers = {text: len(self._texts) - i for i, text in enumerate(reversed(self._texts))}
        self._start = State()
        _require(_calls.backoff_start(*self._slots, *self._start._numbers.buffer_info()), self.path)

    @property
    def order(self) -> int:
        """The most words that a row of the list has."""
        return self._table[-ROW_ITEMS]

    def __contains__(self, word: Text) -> bool:
        """Whether the list has the word; <unk> itself counts as unknown, as in KenLM."""
        return self._number(word) > UNKNOWN_WORD

    def __repr__(self) -> str:
        return f"<Model from {os.path.basename(self.path)}>"

    def __getstate__(self) -> dict[str, object]:
        """What a copy has, also one that is pickled: the model itself, so that no file is read again."""
        return {name: value for name, value in self.__dict__.items() if name not in ("_slots", "_lines")}

    def __setstate__(self, state: dict[str, object]) -> None:
        self.__dict__.update(state)
        self._slots = self._base.buffer_info() + self._check.buffer_info()

    def _number(self, word: Text) -> int:
        """The number of a word's text."""
        return self._numbers.get(_bytes("word", word), UNLISTED_WORD)

    def _words(self, sentence: Text) -> array.array:
        """The numbers of a sentence's words."""
        number = self._numbers.get
        return array.array("I", [number(word, UNLISTED_WORD) for word in _split(sentence)])

    def _run(self, state: State, words: array.array) -> tuple[int, array.array, array.array]:
        """The total, points and length bytes of at most RUN_LIMIT words; `state` becomes the state after them."""
        points, lengths = _zeros("i", len(words)), _zeros("B", len(words))
        answer = _calls.backoff_run(
            *self._slots,
            *state._numbers.buffer_info(),
            *words.buffer_info(),
            *points.buffer_info(),
            *lengths.buffer_info(),
        )
        _require(answer)
        return answer.total, points, lengths

    def _runs(self, words: array.array, bos: bool, eos: bool) -> Iterator[tuple[int, array.array, array.array]]:
        """The runs of the words of a sentence, from its beginning on."""
        state = State()
        if bos:
            self.BeginSentenceWrite(state)
        if eos:
            words = words + array.array("I", [END_WORD])
        for first in range(0, len(words), RUN_LIMIT):
            yield self._run(state, words[first : first + RUN_LIMIT])

    def points(self, sentence: Text, bos: bool = True, eos: bool = True) -> int:
        """The points of a sentence: exact, and a whole number.

        bos  whether it is scored after <s>, or without context
        eos  whether the closing </s> is scored too
        """
        return sum(total for total, _, _ in self._runs(self._words(sentence), bos, eos))

    def full_points(self, sentence: Text, bos: bool = True, eos: bool = True) -> Iterator[tuple[int, int, bool]]:
        """Of each word, and of </s> where `eos`: its points, its matched length, and whether it is unknown."""
        for _, points, lengths in self._runs(self._words(sentence), bos, eos):
            for word_points, length in zip(points, lengths):
                yield word_points, length & MATCHED_LENGTH, bool(length & UNKNOWN_LENGTH)

    def plain_points(self, sentence: Text, bos: bool = True, eos: bool = True) -> int:
        """`points` from the list alone, by backoff_plain. The list is checked again at each call."""
        words = self._words(sentence)
        if eos:
            words.append(END_WORD)
        total = done = 0
        while done < len(words):
            # Of the words before, as many are given again as count.
            first = max(done - self.order + 1, 0)
            part = words[first : first + RUN_LIMIT]
            points, lengths = _zeros("i", len(part)), _zeros("B", len(part))
            answer = _calls.backoff_plain(
                *self._table.buffer_info(),
                bos and first == 0,
                *part.buffer_info(),
                *points.buffer_info(),
                *lengths.buffer_info(),
            )
            _require(answer)
            total += sum(points[done - first :])
            done = first + len(part)
        return total

    def _lookup(self, words: array.array) -> Optional[Row]:
        """The row of these words, oldest first; None if the list has none."""
        found = _calls.backoff_lookup(*self._slots, *words.buffer_info())
        _require(found)
        return Row(found.p, found.b, bool(found.left)) if found.found else None

    def lookup(self, words: Text) -> Optional[Row]:
        """The row of 1 to 5 words, oldest first and parted by blanks; None if the list has no such row.

        No word is replaced by <unk>.
        """
        return self._lookup(self._words(words))

    @functools.cached_property
    def _lines(self) -> Optional[dict[bytes, int]]:
        """The line of each row in the ARPA text, by its words; None if the list comes from an array file."""
        if self._arpa is None:
            return None
        fields = [line.split(b"\t") for line in self._arpa.split(b"\n")]
        return {field[1]: number for number, field in enumerate(fields, 1) if len(field) > 1}

    def _line_of(self, texts: list[bytes]) -> Optional[int]:
        """The line of a listed row; 0 if filling added it, None if no lines are known."""
        return None if self._lines is None else self._lines.get(b" ".join(texts), 0)

    def _try(self, row: array.array) -> Tried:
        """What a row adds: its p, or the b of its words but the last."""
        texts = [self._texts[word - 1] for word in row]
        shown = tuple(map(_shown, texts))
        found = self._lookup(row)
        if found is not None:
            return Tried(shown, "p", found.p, self._line_of(texts))
        before = self._lookup(row[:-1])
        if before is not None:
            return Tried(shown, "b", before.b, self._line_of(texts[:-1]))
        return Tried(shown, "none", 0, None)

    def explain(self, sentence: Text, bos: bool = True, eos: bool = True) -> Explanation:
        """How the points of a sentence are added up: for each word, the rows that the back-off rule tries.

        Every p and b is an answer of backoff_lookup, and the sums are compared with the answers of backoff_run.
        """
        texts = _split(sentence) + ([b"</s>"] if eos else [])
        words, history = [], array.array("I", [START_WORD] if bos else [])
        for text, scored in zip(texts, self.full_points(sentence, bos, eos)):
            given = array.array("I", [self._number(text)])
            word = given if self._lookup(given) else array.array("I", [UNKNOWN_WORD])
            history = history[max(len(history) - self.order + 1, 0) :]
            tried = []
            while not tried or tried[-1].added != "p":
                tried.append(self._try(history[len(tried) :] + word))
            words.append(ExplainedWord(_shown(text), tuple(tried), word[0] == UNKNOWN_WORD))
            if (words[-1].points, words[-1].matched, words[-1].unknown) != scored:
                raise RuntimeError(f"a fault of this module: the run answered {scored} for {words[-1]!r}")
            history = array.array("I", [START_WORD]) if given[0] == END_WORD else history + word
        return Explanation(tuple(words))

    def score(self, sentence: Text, bos: bool = True, eos: bool = True) -> float:
        """The base-10 logarithm of a sentence's probability: its points divided by 1,000,000."""
        return self.points(sentence, bos, eos) / POINTS_PER_LOG

    def full_scores(self, sentence: Text, bos: bool = True, eos: bool = True) -> Iterator[tuple[float, int, bool]]:
        """`full_points` with logarithms in place of points."""
        for points, length, unknown in self.full_points(sentence, bos, eos):
            yield points / POINTS_PER_LOG, length, unknown

    def perplexity(self, sentence: Text) -> float:
        """10 to the power of minus the score divided by the number of words, </s> among them."""
        words = len(_split(sentence)) + 1
        return 10.0 ** (-self.score(sentence) / words)

    def BeginSentenceWrite(self, state: State) -> None:
        """Makes `state` the one after <s>."""
        _require_state("state", state)
        state._numbers = self._start._numbers[:]

    def NullContextWrite(self, state: State) -> None:
        """Makes `state` the one without context."""
        _require_state("state", state)
        state._numbers = _zeros("i", STATE_LENGTH)

    def _step(self, in_state: State, word: Text, out_state: State) -> tuple[int, int]:
        """Points and length byte of a word; `out_state` may be `in_state` itself."""
        _require_state("in_state", in_state)
        _require_state("out_state", out_state)
        state = in_state.__copy__()
        total, _, lengths = self._run(state, array.array("I", [self._number(word)]))
        out_state._numbers = state._numbers
        return total, lengths[0]

    def BasePoints(self, in_state: State, word: Text, out_state: State) -> int:
        """The points of a word after `in_state`; `out_state` becomes the state after the word.

        Behind the word </s> the state is the one after <s>. In KenLM it is the one after </s>.
        """
        return self._step(in_state, word, out_state)[0]

    def BaseScore(self, in_state: State, word: Text, out_state: State) -> float:
        """`BasePoints` as a base-10 logarithm."""
        return self.BasePoints(in_state, word, out_state) / POINTS_PER_LOG

    def BaseFullScore(self, in_state: State, word: Text, out_state: State) -> FullScoreReturn:
        """`BaseScore` with the matched length, and whether the word is unknown."""
        points, length = self._step(in_state, word, out_state)
        return FullScoreReturn(points / POINTS_PER_LOG, length & MATCHED_LENGTH, bool(length & UNKNOWN_LENGTH))

    def sheet(self, sentences: Iterable[Text]) -> Sheet:
        """The sheet of sentences, each scored after <s> and closed with </s>.

        Sentences are independent: the sheets of parts, added, are the sheet of the whole.
        """
        if isinstance(sentences, (str, bytes)):
            raise TypeError("a sheet is of many sentences, not of one text")
        whole, words, ends = Sheet(), array.array("I"), array.array("I")
        for sentence in sentences:
            numbers = self._words(sentence)
            if len(words) + len(numbers) > RUN_LIMIT or len(ends) == RUN_LIMIT:
                whole += self._batch(words, ends)
                words, ends = array.array("I"), array.array("I")
            if len(numbers) > RUN_LIMIT:
                whole += self._long_sentence(numbers)
            else:
                words += numbers
                ends.append(len(words))
        return whole + self._batch(words, ends)

    def _batch(self, words: array.array, ends: array.array) -> Sheet:
        """The sheet of at most RUN_LIMIT words and sentences; `ends` has the words up to the end of each sentence."""
        points, lengths = _zeros("i", len(words)), _zeros("B", len(words))
        answer = _calls.backoff_batch(
            *self._slots,
            *words.buffer_info(),
            *ends.buffer_info(),
            *points.buffer_info(),
            *lengths.buffer_info(),
        )
        _require(answer)
        return Sheet(answer.sentences, answer.words, answer.unknown, answer.total, tuple(answer.matched))

    def _long_sentence(self, words: array.array) -> Sheet:
        """The sheet of one sentence that is too long for a batch."""
        total, lengths = 0, b""
        for run_total, _, run_lengths in self._runs(words, True, True):
            total += run_total
            lengths += run_lengths.tobytes()
        matched = [length & MATCHED_LENGTH for length in lengths]
        unknown = sum(length & UNKNOWN_LENGTH != 0 for length in lengths)
        return Sheet(1, len(words), unknown, total, tuple(map(matched.count, range(1, ORDER_LIMIT + 1))))

    def _listing(
        self, call: Callable[..., ctypes.Structure], k: int
    ) -> tuple[ctypes.Structure, Callable[[int], ListedSentence]]:
        """The answer of a call that lists sentences of k words, and the sentence of each number."""
        k = operator.index(k)
        words, totals = _zeros("I", LISTING_LIMIT * min(max(k, 0), ORDER_LIMIT)), _zeros("q", LISTING_LIMIT)
        # A k that 32 bits do not hold is refused as 0 is.
        answer = call(*self._slots, k if 0 < k < 2**32 else 0, *words.buffer_info(), *totals.buffer_info())
        _require(answer)

        def sentence(number: int) -> ListedSentence:
            texts = (_shown(self._texts[word - 1]) for word in words[k * (number - 1) : k * number])
            return ListedSentence(number, tuple(texts), totals[number - 1])

        return answer, sentence

    def sentences(self, k: int) -> list[ListedSentence]:
        """Every sentence of k words, 1 to 4, over all words but <s> and </s>, of which there may be 16; <unk> is one.

        Each is scored after <s> and closed with </s>. They ascend by the numbers of their words.
        """
        answer, sentence = self._listing(_calls.backoff_sentences, k)
        return [sentence(number) for number in range(1, answer.sentences + 1)]

    def largest_move(self, k: int) -> Move:
        """How far one word can move a total: the largest distance between two of `sentences(k)` that differ at one place.

        Of several such pairs it is the earliest. With fewer than two words there is none, and the distance is 0.
        """
        answer, sentence = self._listing(_calls.backoff_largest_move, k)
        pair = [sentence(number) if number else None for number in (answer.first, answer.second)]
        return Move(answer.distance, *pair)

    def save(self, path: Path) -> None:
        """Writes the array file, which `Model` reads without building anything. It is there whole or not at all.

        The file that the model was read from is not overwritten.
        """
        if os.path.exists(path) and os.path.exists(self.path) and os.path.samefile(path, self.path):
            raise Refused("the array would take the place of the file that the model was read from", path=os.fspath(path))
        texts = b"".join(bytes([len(text)]) + text for text in self._texts)
        sizes = (self.order, self._base[1], len(self._texts), len(self._base), len(texts))
        head = _HEAD.pack(FIRST_LINE, VERSION, *sizes)
        data = head + self._base.tobytes() + self._check.tobytes() + texts
        _write(path, data + _CHECKSUM.pack(zlib.crc32(data)))


LanguageModel = Model
