"""Reads .bib files by the proved library, libbib.so, from Python.

    import bib

    for row in bib.read(open("mine.bib", "rb").read()):
        print(row.kind, row.start, row.end)

Rows are a sequence whose items are tuples of kind, detail, start and end; start and end are bytes of
the file. They are kept as numbers, four a row, which `rows.numbers` lends out. What is refused raises
`Refusal`, with the number and the place; an argument of a wrong type, as a file that is not bytes, raises
`TypeError`. What `bib check` finds in a file, `check` gives:

    for finding in bib.check(open("mine.bib", "rb").read()):
        print(finding.line, finding.level, finding.message, finding.hint)

It is of libbibcheck.so, which is not proved, and all else of libbib.so, which is.

A library is looked for when it is first called: in the folder that the variable KNURRAVOE_LIB names; then
in `knurravoe` beside this file, where pip puts it; then in `lib` beside this file's folder and its
parents, where host/install puts it, and in `target/release`, where cargo does; then in `~/.local/lib`, where
host/install puts it unless it is told otherwise; then where the system looks.
"""

import collections.abc
import ctypes
import ctypes.util
import enum
import functools
import mmap
import operator
import os
import pathlib
import site
from typing import Iterable, NamedTuple, Optional, Tuple, Union

__all__ = ["Chunk", "ChunkRow", "ChunkRows", "Finding", "Kind", "MONTHS", "MOST_BYTES", "MOST_LITERAL", "Refusal", "Resolved", "Row", "Rows"]
__all__ += ["VERBATIM", "check", "format_sentence", "format_verbatim", "pack", "read", "resolve_field", "resolve_file", "resolve_literal"]
__all__ += ["salvage", "to_biblatex_string", "unpack"]

# The most bytes that a file may have, and a literal that is resolved; the numbers of a row, the bytes of a packed one, and the
# numbers of a chunk row and of a value's answer; and the least scratch.
MOST_BYTES = 16_777_215
MOST_LITERAL = 16_384
_NUMBERS = 4
_BYTES = 7
_CHUNK_NUMBERS = 5
_ANSWER_NUMBERS = 6
_LEAST_SCRATCH = 32_768
# More text than this is refused however much is lent, since the numbers of a chunk row have 32 bits; and no more chunks are lent.
_MOST_LENT = 4_294_967_295

_NO_ROOM = 16


# The fields whose text is taken as it stands, in small letters; and the English months, each word with its text.
VERBATIM = ("file", "doi", "uri", "eprint", "verba", "verbb", "verbc", "pdf", "url", "urlraw")
MONTHS = tuple(
    (month[:3].lower(), month)
    for month in "January February March April May June July August September October November December".split()
)


class Kind(enum.IntEnum):
    """What a row is of."""

    PREAMBLE = 0
    ENTRY = 1
    ENTRY_TYPE = 2
    KEY = 3
    FIELD_NAME = 4
    VALUE = 5
    LITERAL = 6
    NAME = 7
    DEFINITION_NAME = 8
    DAMAGE = 9
    CAUSE = 10


class Chunk(enum.IntEnum):
    """What a chunk row is of."""

    NORMAL = 0
    VERBATIM = 1
    MATH = 2


class Row(NamedTuple):
    """The bytes start..end of the file are of this kind. The detail is 0, but in a cause the number of the refusal, whose bytes these
    are."""

    kind: int
    detail: int
    start: int
    end: int


class ChunkRow(NamedTuple):
    """A chunk of this kind: the bytes text_start..text_end of its text, which stood in the file at start..end."""

    kind: int
    text_start: int
    text_end: int
    start: int
    end: int


class _Numbers(collections.abc.Sequence):
    """Rows as the library gives them: numbers in a row of memory, of which an item is made when it is asked for. They do not change, and
    are equal to any sequence of the same tuples."""

    __slots__ = ("numbers",)

    def __init__(self, numbers: memoryview):
        self.numbers = memoryview(numbers).toreadonly()
        if self.numbers.format != "I" or len(self.numbers) % self._WIDTH:
            raise TypeError(f"give the numbers of rows, as `numbers` lends them out, {self._WIDTH} a row")

    def __len__(self):
        return len(self.numbers) // self._WIDTH

    def __getitem__(self, at):
        if not isinstance(at, slice):
            start = range(len(self))[at] * self._WIDTH
            return self._ROW(*self.numbers[start : start + self._WIDTH])
        first, last, step = at.indices(len(self))
        if step != 1:
            return tuple(self[i] for i in range(first, last, step))
        return type(self)(self.numbers[first * self._WIDTH : max(first, last) * self._WIDTH])

    def __iter__(self):
        numbers = iter(self.numbers)
        return map(self._ROW, *[numbers] * self._WIDTH)

    def __eq__(self, other):
        if isinstance(other, type(self)):
            return self.numbers == other.numbers
        if not isinstance(other, collections.abc.Sequence):
            return NotImplemented
        return len(self) == len(other) and all(row == tuple(theirs) for row, theirs in zip(self, other))

    def __hash__(self):
        return hash(tuple(self))

    def __repr__(self):
        return f"{type(self).__name__}({list(map(tuple, self[:8]))}{', and more' if len(self) > 8 else ''})"


class Rows(_Numbers):
    """Rows of a file. `numbers` has four numbers for each."""

    __slots__ = ()
    _WIDTH, _ROW = _NUMBERS, Row


class ChunkRows(_Numbers):
    """Rows of chunks. `numbers` has five numbers for each."""

    __slots__ = ()
    _WIDTH, _ROW = _CHUNK_NUMBERS, ChunkRow


class Resolved(NamedTuple):
    """What is resolved: the text of its chunks, their rows, and how many names were resolved, month words included. A literal has
    none."""

    text: bytes
    chunks: ChunkRows
    names: int


class Finding(NamedTuple):
    """What is to be said of a file. An error has the number of its refusal and a warning none; both have a name. Line and
    column are where a person should look, and start..end the bytes that it is about. Hint and key may be None. Where
    another file's definition is at fault, lender is its number among the strings, the first being 0."""

    number: Optional[int]
    name: str
    level: str
    line: int
    column: int
    start: int
    end: int
    key: Optional[str]
    message: str
    hint: Optional[str]
    lender: Optional[int]


_WHAT = {
    1: "the file is longer than 16,777,215 bytes",
    2: "bytes that are not UTF-8",
    3: "a value is missing or the text ends too early",
    4: "expected an identifier",
    5: "expected an opening brace",
    6: "expected a closing brace",
    7: "expected a comma",
    8: "expected a quotation mark",
    9: "expected an equals sign",
    10: "unexpected decimal point",
    11: "unexpected closing brace",
    12: "a name without a definition",
    13: "a name that is used in its own definition",
    14: "too many names or arguments of commands inside each other",
    15: "more than 4,096 names in one field",
    16: "there is not enough room for the answer",
    17: "these are not well-formed rows",
}


class Refusal(ValueError):
    """What was refused: its number, and its place, the bytes start..end. Where reading refuses with 3 to 10, these are the whole
    character that is wrong, or none at the end of the file."""

    def __init__(self, number: int, start: int, end: int):
        # A file that is too long has 0..0, a literal its own place.
        is_literal = number == 1 and end > 0
        what = "a literal is longer than 16,384 bytes" if is_literal else _WHAT.get(number, "refused")
        place = "" if number in (1, _NO_ROOM, 17) and not is_literal else f" at byte {start}"
        super().__init__(f"{what}{place} (refusal {number})")
        self.number = number
        self.start = start
        self.end = end


@functools.lru_cache(maxsize=None)
def _library(name: str) -> ctypes.CDLL:
    folders = [pathlib.Path(os.environ["KNURRAVOE_LIB"])] if "KNURRAVOE_LIB" in os.environ else []
    here = pathlib.Path(__file__).resolve().parent
    folders += [here / "knurravoe"] + [parent / folder for parent in here.parents for folder in ("lib", "target/release")]
    folders += [pathlib.Path(site.getuserbase(), "lib")]
    for folder in folders:
        if (folder / f"lib{name}.so").is_file():
            return ctypes.CDLL(str(folder / f"lib{name}.so"))
    found = ctypes.util.find_library(name)
    if found is None:
        raise OSError(f"lib{name}.so is not found: host/install installs it, or KNURRAVOE_LIB names its folder")
    return ctypes.CDLL(found)


_LENT = [ctypes.c_void_p, ctypes.c_size_t]


def _function(name: str, given: list, numbers: int = 3):
    """A function of the proved library, which is looked for when it is first called."""

    @functools.lru_cache(maxsize=None)
    def found():
        function = getattr(_library("bib"), name)
        function.argtypes = given + _LENT + [ctypes.POINTER(ctypes.c_uint64)] * numbers
        function.restype = ctypes.c_uint32
        return function

    return lambda *words: found()(*words)


_read, _salvage, _pack, _unpack = (_function(name, _LENT) for name in ("bib_read", "bib_salvage", "bib_pack", "bib_unpack"))
_format_verbatim, _format_sentence = (_function(name, _LENT + _LENT) for name in ("bib_format_verbatim", "bib_format_sentence"))
_to_biblatex_string = _function("bib_to_biblatex_string", _LENT + _LENT + [ctypes.c_uint32])
_PLACES = [ctypes.c_size_t, ctypes.c_size_t]
_resolve_literal = _function("bib_resolve_literal", _LENT + _PLACES + [ctypes.c_uint32] + _LENT + _LENT, 5)
_resolve_field = _function("bib_resolve_field", _LENT + _LENT + [ctypes.c_size_t, ctypes.c_uint32] + _LENT * 4, 5)
_resolve_file = _function("bib_resolve_file", _LENT * 10, 5)


def _bytes(given) -> bytes:
    """What is given as bytes. A number or a text is not taken for some."""
    try:
        return bytes(memoryview(given))
    except TypeError:
        raise TypeError(f"give the bytes of a file, as open(.., 'rb').read() does, not {type(given).__name__}") from None


def _text(given) -> bytes:
    """A text in UTF-8."""
    if not isinstance(given, str):
        raise TypeError(f"give a text, not {type(given).__name__}")
    return given.encode()


def _whole(given, what: str) -> int:
    """A whole number."""
    try:
        return operator.index(given)
    except TypeError:
        raise TypeError(f"give a whole number as {what}, not {type(given).__name__}") from None


def _flag(given, what: str) -> int:
    """True or False as a number. A text is neither, though Python takes it for true."""
    if given not in (True, False):
        raise TypeError(f"give True or False as {what}, not {given!r}")
    return int(given)


def _pairs(given: Iterable, what: str) -> list:
    """What is given in pairs. A text of two letters is none."""
    try:
        pairs = [() if isinstance(pair, str) else tuple(pair) for pair in given]
    except TypeError:
        pairs = [()]
    if any(len(pair) != 2 for pair in pairs):
        raise TypeError(f"give {what} as pairs")
    return pairs


def _room(numbers: int):
    """So many numbers of 32 bits, to be lent. They are zeros of the system, which take memory only where they are written."""
    return (ctypes.c_uint32 * numbers).from_buffer(mmap.mmap(-1, 4 * numbers)) if numbers else (ctypes.c_uint32 * 0)()


def _written_numbers(room, count: int) -> memoryview:
    """The first of the lent numbers, in memory of their own."""
    return memoryview(bytes(memoryview(room).cast("B")[: 4 * count])).cast("I")


def _call(function, given: tuple, room) -> int:
    """How many the call wrote into the room."""
    count, start, end = ctypes.c_uint64(), ctypes.c_uint64(), ctypes.c_uint64()
    status = function(*given, room, len(room), ctypes.byref(count), ctypes.byref(start), ctypes.byref(end))
    if status != 0:
        raise Refusal(status, start.value, end.value)
    return count.value


def _rows(function, data: bytes, most: int) -> Rows:
    room = _room(most * _NUMBERS)
    return Rows(_written_numbers(room, _call(function, (data, len(data)), room) * _NUMBERS))


def _numbers(rows: Iterable[Tuple[int, ...]], kind: type):
    """The numbers of rows of this kind, to be lent. Rows of another length, and what is no number of 32 bits, are refused as bad rows
    are."""
    if isinstance(rows, kind):
        return (ctypes.c_uint32 * len(rows.numbers)).from_buffer_copy(rows.numbers)
    try:
        if isinstance(rows, _Numbers):
            raise TypeError(f"these are {type(rows).__name__}")
        rows = [tuple(map(operator.index, row)) for row in rows]
    except TypeError as error:
        raise TypeError(f"give {kind.__name__}, or rows of {kind._WIDTH} whole numbers: {error}") from error
    numbers = [number for row in rows for number in row]
    if not all(len(row) == kind._WIDTH for row in rows) or not all(0 <= number < 1 << 32 for number in numbers):
        raise Refusal(17, 0, 0)
    return (ctypes.c_uint32 * len(numbers))(*numbers)


def read(file: bytes) -> Rows:
    """Reads a file strictly: all of its rows, in file order, or the refusal of what is wrong first."""
    file = _bytes(file)
    return _rows(_read, file, min(len(file), MOST_BYTES) + 1)


def salvage(file: bytes) -> Rows:
    """Salvages a file: each piece, from an "@" at the beginning of a line to the next, is read alone; of a damaged
    one the damage and its cause remain. Refuses only a file that is too long."""
    file = _bytes(file)
    return _rows(_salvage, file, min(len(file), MOST_BYTES) + 1)


def pack(rows: Iterable[Tuple[int, int, int, int]]) -> bytes:
    """Packs rows, seven bytes each."""
    lent = _numbers(rows, Rows)
    room = (ctypes.c_uint8 * (len(lent) // _NUMBERS * _BYTES))()
    count = _call(_pack, (lent, len(lent)), room)
    return bytes(memoryview(room)[:count])


def unpack(packed: bytes) -> Rows:
    """Unpacks rows."""
    packed = _bytes(packed)
    return _rows(_unpack, packed, len(packed) // _BYTES)


def _written(function, text: bytes, chunks: Iterable[Tuple[int, int, int, int, int]], flag: Tuple[int, ...], each: int) -> str:
    """What a writer writes, where each byte of a chunk is written as so many at most. Two more may stand around a chunk, and
    three around all."""
    text = _bytes(text)
    # Numbers that cannot be lent are bad rows, but a text that is not UTF-8 comes first: the call refuses either, since one number is
    # no row.
    try:
        lent = _numbers(chunks, ChunkRows)
    except Refusal:
        lent = (ctypes.c_uint32 * 1)()
    lengths = (min(max(end - start, 0), len(text)) for start, end in zip(lent[1::_CHUNK_NUMBERS], lent[2::_CHUNK_NUMBERS]))
    room = (ctypes.c_uint8 * (3 + sum(each * length + 2 for length in lengths)))()
    count = _call(function, (text, len(text), lent, len(lent)) + flag, room)
    return bytes(memoryview(room)[:count]).decode()


def format_verbatim(text: bytes, chunks: Iterable[Tuple[int, int, int, int, int]]) -> str:
    """Formats chunks verbatim. A chunk is its kind, text start and end, which are bytes of the text, and span start and end,
    which are not looked at."""
    return _written(_format_verbatim, text, chunks, (), 1)


def format_sentence(text: bytes, chunks: Iterable[Tuple[int, int, int, int, int]]) -> str:
    """Formats chunks in sentence case: what is normal in lower case, save the first character of the first chunk, which is in
    upper case; all else as `format_verbatim` does."""
    # A character of two bytes may become three of two bytes each.
    return _written(_format_sentence, text, chunks, (), 3)


def to_biblatex_string(text: bytes, chunks: Iterable[Tuple[int, int, int, int, int]], is_verbatim: bool) -> str:
    """Writes chunks as a BibLaTeX string, for a verbatim field, as `file` or `url`, or another."""
    return _written(_to_biblatex_string, text, chunks, (_flag(is_verbatim, "is_verbatim"),), 2)


def resolve_literal(file: bytes, start: int, end: int, is_verbatim: bool) -> Resolved:
    """Resolves the literal that stands in a file at start..end, of a verbatim field, as `file` or `url`, or another."""
    file = _bytes(file)
    # What cannot be lent as a place lies outside the file.
    places = _whole(start, "start"), _whole(end, "end")
    start, end = (place if 0 <= place <= len(file) else len(file) + 1 for place in places)
    # A literal of n bytes has at most n + 1 chunks and 2 * n bytes of text. A longer one than the most is refused.
    length = min(max(end - start, 0), MOST_LITERAL)
    return _resolved(_resolve_literal, (file, len(file), start, end, _flag(is_verbatim, "is_verbatim")), length + 1, 2 * length)


def _resolved(function, given: tuple, most_chunks: int, most_text: int) -> Resolved:
    """What a call that resolves gives, with room for so many chunks and so much text."""
    scratch = (ctypes.c_uint8 * _LEAST_SCRATCH)()
    rows = _room(most_chunks * _CHUNK_NUMBERS)
    text = (ctypes.c_uint8 * most_text)()
    told = [ctypes.c_uint64() for _ in range(5)]
    status = function(*given, scratch, len(scratch), rows, len(rows), text, len(text), *map(ctypes.byref, told))
    count, written, names, place, place_end = (number.value for number in told)
    if status != 0:
        raise Refusal(status, place, place_end)
    return Resolved(bytes(memoryview(text)[:written]), ChunkRows(_written_numbers(rows, count * _CHUNK_NUMBERS)), names)


def _months(months: Iterable[Tuple[str, str]]):
    """The numbers of month words, to be lent, and the bytes that they are of."""
    places, words = [], b""
    for part in (_text(part) for month in _pairs(months, "months") for part in month):
        places += [len(words), len(words) + len(part)]
        words += part
    return (ctypes.c_uint32 * len(places))(*places), words


def _in_more_room(resolve, room: int):
    """What is resolved in as much room as it needs, which is not known before names are resolved: at first this much; then more, as
    long as the call writes so much and memory lasts."""
    while True:
        try:
            return resolve(room)
        except Refusal as refusal:
            if refusal.number != _NO_ROOM or room >= _MOST_LENT:
                raise
        except MemoryError:
            raise Refusal(_NO_ROOM, 0, 0) from None
        room *= 4


def resolve_field(
    file: bytes, rows: Iterable[Tuple[int, int, int, int]], which: int, is_verbatim: bool, months: Iterable[Tuple[str, str]] = ()
) -> Resolved:
    """Resolves the value whose row is number `which` of the file's rows, of a verbatim field, as `file` or `url`, or another. A name
    stands for its last definition or, if it has none, for the text of the first month word that is the same; months are words with
    their texts."""
    file = _bytes(file)
    lent = _numbers(rows, Rows)
    # What cannot be lent as a row's number is past the rows.
    which = which if 0 <= _whole(which, "which") < len(lent) // _NUMBERS else len(lent)
    month_rows, words = _months(months)
    is_verbatim = _flag(is_verbatim, "is_verbatim")
    given = (file, len(file), lent, len(lent), which, is_verbatim, month_rows, len(month_rows), words, len(words))
    # Enough for literals alone.
    start, end = lent[4 * which + 2 : 4 * which + 4] or (0, 0)
    room = min(max(end - start, 0), len(file)) + 256
    return _in_more_room(lambda room: _resolved(_resolve_field, given, room, 2 * room), room)


def resolve_file(
    file: bytes, rows: Iterable[Tuple[int, int, int, int]], flags: Iterable[bool], months: Iterable[Tuple[str, str]] = ()
) -> Tuple[Union[Resolved, Refusal], ...]:
    """Resolves every value of a file, each as `resolve_field` does, in one call. The flags say of each value, in the order of the rows,
    whether its field is verbatim. A value that is refused has its refusal in the answer; it is not raised, and stops no other."""
    file = _bytes(file)
    lent = _numbers(rows, Rows)
    values = list(memoryview(lent).cast("B").cast("I")[::_NUMBERS]).count(Kind.VALUE)
    lent_flags = bytes(_flag(flag, "a flag") for flag in flags)
    month_rows, words = _months(months)
    given = (file, len(file), lent, len(lent), lent_flags, len(lent_flags), month_rows, len(month_rows), words, len(words))
    return _in_more_room(lambda room: _resolved_all(given, len(lent) // _NUMBERS, values, room), 2 * values + len(file) + 256)


def _resolved_all(given: tuple, rows: int, values: int, room: int) -> Tuple[Union[Resolved, Refusal], ...]:
    """What the call over a whole file gives, with room for so many chunks and so much text."""
    number = ctypes.c_uint32
    scratch, heads, next_rows = (ctypes.c_uint8 * _LEAST_SCRATCH)(), (number * (rows // 2 + 1))(), (number * rows)()
    answers, chunks, text = (number * (values * _ANSWER_NUMBERS))(), _room(room * _CHUNK_NUMBERS), (ctypes.c_uint8 * room)()
    lent = [part for memory in (scratch, heads, next_rows, answers, chunks, text) for part in (memory, len(memory))]
    told = [ctypes.c_uint64() for _ in range(5)]
    status = _resolve_file(*given, *lent, *map(ctypes.byref, told))
    _, chunk_rows, written, place, place_end = (number.value for number in told)
    if status != 0:
        raise Refusal(status, place, place_end)
    all_chunks, all_text = ChunkRows(_written_numbers(chunks, chunk_rows * _CHUNK_NUMBERS)), bytes(memoryview(text)[:written])

    def value(answer: list) -> Union[Resolved, Refusal]:
        status, names, first, last, start, end = answer
        if status != 0:
            return Refusal(status, first, last)
        return Resolved(all_text[start:end], all_chunks[first:last], names)

    return tuple(value(answers[i : i + _ANSWER_NUMBERS]) for i in range(0, len(answers), _ANSWER_NUMBERS))


class _Found(ctypes.Structure):
    """A finding as C has it: struct bib_finding of include/bib_check.h."""

    _fields_ = [(name, ctypes.c_uint32) for name in ("number", "level")]
    _fields_ += [(name, ctypes.c_uint64) for name in ("line", "column", "start", "end", "lender")]
    _fields_ += [(name, ctypes.c_char_p) for name in ("name", "message", "hint", "key")]


class _Lender(ctypes.Structure):
    _fields_ = [("name", ctypes.c_char_p), ("file", ctypes.c_char_p), ("length", ctypes.c_size_t)]


class _Options(ctypes.Structure):
    _fields_ = [("name", ctypes.c_char_p), ("lenders", ctypes.POINTER(_Lender)), ("lender_count", ctypes.c_size_t)]
    _fields_ += [("limit", ctypes.c_uint64), ("no_resolve", ctypes.c_uint32)]


_SAY = ctypes.CFUNCTYPE(ctypes.c_uint32, ctypes.c_void_p, ctypes.POINTER(_Found))
_LEVELS = {1: "error", 2: "warning"}


def _finding(found: _Found) -> Finding:
    def text(words: Optional[bytes]) -> Optional[str]:
        return None if words is None else words.decode()

    return Finding(
        found.number or None,
        found.name.decode(),
        _LEVELS[found.level],
        found.line,
        found.column,
        found.start,
        found.end,
        text(found.key),
        found.message.decode(),
        text(found.hint),
        found.lender - 1 if found.lender else None,
    )


def check(
    file: bytes,
    strings: Iterable[Tuple[str, bytes]] = (),
    name: str = "the file",
    resolve: bool = True,
    limit: int = 32_000_000,
) -> Tuple[Finding, ...]:
    """What `bib check` finds in a file, in its order. The strings are other files, each with its name, that lend their
    @string definitions; the file's own name is said where one of those is at fault. Without resolve, what only resolving
    refuses is left out. The values of the file may come to so many bytes as the limit says."""
    file, lent = _bytes(file), [(_text(lender), _bytes(text)) for lender, text in _pairs(strings, "strings")]
    lenders = (_Lender * len(lent))(*(_Lender(lender, text, len(text)) for lender, text in lent))
    limit = _whole(limit, "limit")
    if limit < 1:
        raise ValueError("give a limit of one byte at least")
    options = _Options(_text(name), lenders, len(lenders), min(limit, (1 << 64) - 1), 1 - _flag(resolve, "resolve"))
    found = []

    def say(_, finding) -> int:
        found.append(_finding(finding.contents))
        return 0

    call = _library("bibcheck").bib_check
    call.argtypes = _LENT + [ctypes.POINTER(_Options), _SAY, ctypes.c_void_p, ctypes.c_void_p]
    call.restype = ctypes.c_uint32
    status = call(file, len(file), ctypes.byref(options), _SAY(say), None, None)
    if status != 0:
        raise Refusal(status, 0, 0)
    return tuple(found)
