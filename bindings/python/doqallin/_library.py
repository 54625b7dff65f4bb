# SPDX-License-Identifier: Apache-2.0
# SPDX-FileCopyrightText: Copyright the Vortex contributors; ported to Rattle and changed
"""The proved libraries, and their exports as C sees them.

The declarations are written by hand after crates/vortex_c and crates/vortex_call. `tests/definitions` compares the statuses with
those crates, and the suites the rest. A slice crosses as a pointer and then a length, and a `bytes` lends its pointer, which is
never null.
"""

from __future__ import annotations

import ctypes
import functools
import os
from ctypes import POINTER, byref, c_bool, c_char, c_char_p, c_size_t, c_uint8, c_uint32, c_uint64, c_void_p
from pathlib import Path
from typing import Any, TypeVar

from ._errors import (
    BadBytes,
    BadOffsets,
    DoqallinError,
    LibraryMissing,
    NegativeLength,
    NotANumber,
    NotAValue,
    NotUtf8,
    OutOfMemory,
    TooManyRows,
    TooShort,
    UnknownKind,
    WrongLength,
    at,
)
from ._kinds import ColumnKind

GIVEN, NONE, NO_MEMORY, BUFFER_TOO_SMALL, NOT_UTF8, NOT_A_NUMBER, BAD_OFFSETS = range(7)
UNKNOWN_KIND, TOO_MANY_ROWS, TOO_SHORT, BAD_BYTES, BAD_FILTER, WRONG_LENGTH = range(7, 13)
NOT_A_VALUE, REFUSED = range(14, 16)
MAX_SIZE: int = 2 ** (8 * ctypes.sizeof(c_size_t)) - 1

_ERRORS: dict[int, tuple[type[DoqallinError], str]] = {
    NO_MEMORY: (OutOfMemory, "an allocation was refused"),
    NOT_UTF8: (NotUtf8, "the bytes are not UTF-8"),
    NOT_A_NUMBER: (NotANumber, "the kind does not have the number"),
    BAD_OFFSETS: (BadOffsets, "an offset goes down, or past the end of the bytes"),
}


class BoundLengths(ctypes.Structure):
    _fields_ = [("lower", c_size_t), ("upper", c_size_t), ("has_upper", c_bool)]


class RawKind(ctypes.Structure):
    """A kind by its code, with the precision and the scale of decimals."""

    code: int
    precision: int
    scale: int
    _fields_ = [("code", c_uint8), ("precision", c_uint8), ("scale", c_uint8)]


class RawColumn(ctypes.Structure):
    _fields_ = [
        ("kind", c_uint8),
        ("precision", c_uint8),
        ("scale", c_uint8),
        ("validity", c_void_p),
        ("validity_length", c_size_t),
        ("values", c_void_p),
        ("values_length", c_size_t),
        ("offsets", c_void_p),
        ("offsets_length", c_size_t),
        ("offset", c_size_t),
        ("length", c_size_t),
    ]


class ColumnBuffers(ctypes.Structure):
    count: int
    _fields_ = [
        ("validity", c_void_p),
        ("validity_length", c_size_t),
        ("values", c_void_p),
        ("values_length", c_size_t),
        ("offsets", c_void_p),
        ("offsets_length", c_size_t),
        ("count", c_size_t),
    ]


class Fault(ctypes.Structure):
    column: int
    place: int
    _fields_ = [("column", c_size_t), ("place", c_size_t)]


class Parts(ctypes.Structure):
    _fields_ = [
        ("row_count", c_uint64),
        ("null_count", c_uint64),
        ("lower_length", c_size_t),
        ("upper_length", c_size_t),
        ("has_null_count", c_bool),
        ("has_lower", c_bool),
        ("lower_is_exact", c_bool),
        ("has_upper", c_bool),
        ("upper_is_exact", c_bool),
    ]


class NamedKind(ctypes.Structure):
    _fields_ = [("name", c_char_p), ("name_length", c_size_t), ("kind", c_uint8), ("precision", c_uint8), ("scale", c_uint8)]


class Mistake(ctypes.Structure):
    place: int
    expected: int
    _fields_ = [("place", c_size_t), ("expected", c_uint32)]


class ByteRange(ctypes.Structure):
    """So many bytes of a file from an offset on."""

    place: int
    length: int
    _fields_ = [("place", c_uint64), ("length", c_uint64)]


class IndexParts(ctypes.Structure):
    file_length: int
    changed: int
    start: int
    zone_count: int
    block_count: int
    _fields_ = [("file_length", c_uint64), ("changed", c_uint64), ("start", c_uint64), ("zone_count", c_size_t), ("block_count", c_size_t)]


class SearchFault(ctypes.Structure):
    place: int
    column: int
    reason: int
    _fields_ = [("place", c_uint64), ("column", c_uint64), ("reason", c_uint32)]


class RawZone(ctypes.Structure):
    place: int
    length: int
    records: int
    rows: int
    number: int
    way: int
    decision: int
    _fields_ = [(name, c_uint64) for name in ("place", "length", "records", "rows", "number")] + [("way", c_uint8), ("decision", c_uint8)]


class PlanLengths(ctypes.Structure):
    zones: int
    ranges: int
    _fields_ = [("zones", c_size_t), ("ranges", c_size_t)]


class Found(ctypes.Structure):
    """A record that matches."""

    place: int
    length: int
    number: int
    _fields_ = [("place", c_uint64), ("length", c_uint64), ("number", c_uint64)]


class Position(ctypes.Structure):
    """Where a record begins: the offset in its file, and the number."""

    place: int
    number: int
    _fields_ = [("place", c_uint64), ("number", c_uint64)]


class IndexZone(ctypes.Structure):
    """A zone of an index that is made."""

    first: int
    length: int
    records: int
    rows: int
    statistics: int
    _fields_ = [(name, c_uint64) for name in ("first", "length", "records", "rows")] + [("statistics", c_size_t)]


class IndexLengths(ctypes.Structure):
    zones: int
    statistics: int
    taken: int
    nulls: int
    longer: int
    _fields_ = [(name, c_size_t) for name in ("zones", "statistics", "taken")] + [(name, c_uint64) for name in ("nulls", "longer")]


_BYTES = (c_char_p, c_size_t)
_ROOM = (POINTER(c_uint8), c_size_t)
_COLUMN = (*_BYTES, POINTER(c_uint64), c_size_t, c_size_t, *_ROOM, *_ROOM, POINTER(BoundLengths))


def _folder() -> Path:
    """Where the libraries are: the folder that DOQALLIN_LIB names, that of an installed package, or the repository's."""
    named = os.environ.get("DOQALLIN_LIB")
    if named:
        return Path(named)
    here = Path(__file__).resolve().parent
    return here if (here / "libdoqallin.so").is_file() else here.parents[1] / "out"


def _load(name: str, made_by: str) -> ctypes.CDLL:
    path = _folder() / name
    if not path.is_file():
        raise LibraryMissing(f"{path} is not there: run {made_by}")
    return ctypes.CDLL(str(path))


library = _load("libdoqallin.so", "tools/build_bindings")


def _declare(name: str, result: Any, *arguments: Any, of: ctypes.CDLL = library) -> Any:
    function = getattr(of, f"doqallin_{name}")
    function.argtypes = arguments
    function.restype = result
    return function


_version = _declare("version", c_uint32)

cast_integer = _declare("cast_integer", c_uint32, c_uint8, c_uint64, c_uint8, POINTER(c_uint64))
lower_bytes = _declare("lower_bound_bytes", c_size_t, *_BYTES, c_size_t)
lower_text = _declare("lower_bound_text", c_uint32, *_BYTES, c_size_t, POINTER(c_size_t))
upper_bytes = _declare("upper_bound_bytes", c_uint32, *_BYTES, c_size_t, *_ROOM, POINTER(c_size_t))
upper_text = _declare("upper_bound_text", c_uint32, *_BYTES, c_size_t, *_ROOM, POINTER(c_size_t))
may_contain_bytes = _declare("may_contain_bytes", c_bool, *_BYTES, *_BYTES, c_bool, *_BYTES)
may_contain_text = _declare("may_contain_text", c_uint32, *_BYTES, *_BYTES, c_bool, *_BYTES, POINTER(c_bool))
column_bytes = _declare("column_bounds_bytes", c_uint32, *_COLUMN)
column_text = _declare("column_bounds_text", c_uint32, *_COLUMN)


# Columns. A place that is written is an address, and so is a buffer.
_OUT = c_void_p
_SPACE = (c_void_p, c_size_t)
column_statistics = _declare("column_statistics", c_uint32, _OUT, c_size_t, *_SPACE, _OUT, _OUT)
merge_typed = _declare("merge_typed", c_uint32, _OUT, *_BYTES, *_BYTES, *_SPACE, _OUT, _OUT)
read_typed = _declare("read_typed", c_uint32, _OUT, *_BYTES, *_SPACE, *_SPACE, _OUT, _OUT)
cast_front = _declare("cast_front", c_uint32, _OUT, c_uint8, *_SPACE, _OUT)
prepare_filter = _declare("prepare_filter", c_uint32, *_BYTES, *_SPACE, c_size_t, *_SPACE, _OUT, _OUT)
filter_outcomes = _declare("filter_outcomes", c_uint32, *_BYTES, *_BYTES, *_SPACE, c_size_t, *_SPACE, _OUT)
filter_mask = _declare("filter_mask", c_uint32, *_BYTES, *_SPACE, c_size_t, c_size_t, *_SPACE, _OUT)
row_keys = _declare("row_keys", c_uint32, *_SPACE, *_BYTES, *_SPACE, *_SPACE, _OUT, _OUT)
columns_of_typed_keys = _declare("columns_of_typed_keys", c_uint32, *_SPACE, *_BYTES, *_SPACE, *_SPACE, *_SPACE, _OUT)


# Searches in files.
_FAULT = POINTER(SearchFault)
index_root_length = _declare("index_root_length", c_uint32, *_BYTES, POINTER(c_uint64), _FAULT)
index_root = _declare("index_root", c_uint32, *_BYTES, *_SPACE, _OUT, POINTER(IndexParts), _FAULT)
search_blocks = _declare("search_blocks", c_uint32, *_BYTES, *_BYTES, c_size_t, *_SPACE, _OUT, _FAULT)
search_plan = _declare("search_plan", c_uint32, *_BYTES, *_BYTES, *_BYTES, c_size_t, c_bool, *_SPACE, *_SPACE, POINTER(PlanLengths), _FAULT)
search_records = _declare("search_records", c_uint32, *_BYTES, *_BYTES, c_size_t, *_BYTES, c_bool, POINTER(Position), *_SPACE, _OUT, _FAULT)
column_kinds = _declare("column_kinds", c_uint32, *_BYTES, *_SPACE, _OUT, _FAULT)
search_columns = _declare("search_columns", c_uint32, *_BYTES, *_BYTES, c_size_t, c_uint64, *_BYTES, *_SPACE, *_SPACE, _OUT, _FAULT)
guess_setup = _declare("guess_setup", c_uint32, *_BYTES, *_BYTES, c_bool, c_bool, *_SPACE, _OUT, POINTER(c_uint64), _FAULT)
index_records = _declare("index_records", c_uint32, *_BYTES, c_uint64, *_BYTES, c_bool, *_SPACE, *_SPACE, POINTER(IndexLengths), _FAULT)
write_index = _declare("write_index", c_uint32, *_BYTES, c_uint64, c_uint64, c_uint64, *_SPACE, *_BYTES, *_SPACE, _OUT, _FAULT)


# A buffer of this size holds most answers.
_Answer = c_char * 256


@functools.cache
def _call() -> Any:
    """The call by a line, in a library of its own."""
    of = _load("libdoqallin_call.so", "tools/build_bindings --call")
    return _declare("call_within", c_uint32, *_BYTES, c_size_t, c_void_p, c_size_t, c_void_p, of=of)


def library_version() -> str:
    """The version of the library that is loaded, as `0.1.0`."""
    major, minor, patch = _version().to_bytes(4, "big")[1:]
    return f"{major}.{minor}.{patch}"


def check(status: int) -> None:
    if status != GIVEN:
        error, words = _ERRORS.get(status, (DoqallinError, f"status {status}"))
        raise error(words)


BUFFERS = ("bits of validity", "values", "offsets")


def raw_kind(kind: ColumnKind) -> RawKind:
    return RawKind(*kind)


def check_column(status: int, fault: Fault, of: str = "") -> None:
    """Raises what the status of a call over columns says. `of` names the column, if there are more."""
    place = fault.place
    errors: dict[int, tuple[type[DoqallinError], str]] = {
        NOT_UTF8: (NotUtf8, f"row {place} is not UTF-8"),
        BAD_OFFSETS: (BadOffsets, f"the offsets of row {place} go down, or past the end of the bytes"),
        TOO_SHORT: (TooShort, f"the {BUFFERS[min(place, 2)]} are too short for offset and length"),
        TOO_MANY_ROWS: (TooManyRows, "64 bits do not count the rows"),
        BAD_BYTES: (BadBytes, f"byte {place} is not of the encoding"),
        WRONG_LENGTH: (WrongLength, "there are not as many as there are to be"),
        UNKNOWN_KIND: (UnknownKind, "the call does not take this kind of column"),
        NOT_A_VALUE: (NotAValue, f"the number of row {place} is of no value of the kind"),
    }
    if status in errors:
        error, words = errors[status]
        raise at(error(of + words), place)
    check(status)


def size(n: int) -> int:
    """A length as C takes it."""
    if n < 0:
        raise NegativeLength(f"{n} bytes")
    return min(n, MAX_SIZE)


def encoded(string: str) -> bytes:
    if not isinstance(string, str):
        raise TypeError(f"a str is wanted, not {type(string).__name__}")
    try:
        return string.encode()
    except UnicodeEncodeError:
        raise NotUtf8("the string has half of a surrogate pair") from None


_Item = TypeVar("_Item", c_uint8, c_uint64)


def _new(item: type[_Item], count: int) -> ctypes.Array[_Item]:
    try:
        return (item * count)()
    except (MemoryError, OverflowError):
        raise OutOfMemory(f"there is no memory for {count} items") from None


def new_buffer(length: int) -> ctypes.Array[c_uint8]:
    return _new(c_uint8, length)


def new_offsets(count: int) -> ctypes.Array[c_uint64]:
    return _new(c_uint64, count)


def call(line: str, depth: int = 32) -> str:
    """The answer to a line: the name of a call and what it is given, as in the worked cases of crates/scalar_cases/stdin.

    A refusal is an answer, OutOfMemory among them, and so is `bad line`, to a string that is no line. The answer is `TooDeep`
    if more than `depth` brackets nest in a type or a value, or connectives and parentheses in a filter: each level takes room
    on the stack, and doqallin.h says how much. An arrow, ` => `, and what follows it is passed over. Raises OutOfMemory if
    there is no memory for the line or for the answer, and LibraryMissing if libdoqallin_call.so was not made.

    >>> call("cast i32:1000i32 i16"), call("cast i32:1000i32 i8")
    ('i16:1000i16', 'CannotCast')
    >>> call("zero list(list(u8))", depth=1)
    'TooDeep'
    """
    text, deep = encoded(line), size(depth)
    count = c_size_t()
    written: ctypes.Array[c_char] = _Answer()
    status = _call()(text, len(text), deep, written, len(written), byref(count))
    while status == BUFFER_TOO_SMALL:
        written = (c_char * count.value)()
        status = _call()(text, len(text), deep, written, len(written), byref(count))
    check(status)
    return ctypes.string_at(written, count.value).decode()
