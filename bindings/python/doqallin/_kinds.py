# SPDX-License-Identifier: Apache-2.0
# SPDX-FileCopyrightText: Copyright the Vortex contributors; ported to Rattle and changed
"""The kinds of integers and of columns. The codes are here alone; names, widths and formats follow from them."""

from __future__ import annotations

import ctypes
import enum
import re
from typing import Any, NamedTuple

from ._errors import UnknownKind

__all__ = ["Kind"]


class Kind(enum.IntEnum):
    """The integer types, by their codes."""

    U8 = 0
    U16 = 1
    U32 = 2
    U64 = 3
    I8 = 4
    I16 = 5
    I32 = 6
    I64 = 7

    @property
    def is_signed(self) -> bool:
        """Whether the type has negative numbers."""
        return self >= Kind.I8

    @property
    def width(self) -> int:
        """How many bytes a number has."""
        return int(self.name[1:]) // 8


# By the codes: names of the integer types, and the letters of `array` and of Arrow's formats.
INTEGERS = tuple(kind.name.lower() for kind in Kind)
TYPECODES = "BHIQbhiq"
FORMATS = "CSILcsil"

# The units of times, and how many of each a second has.
UNITS = {"s": 1, "ms": 10**3, "us": 10**6, "ns": 10**9}

# Codes of kinds of columns. Strings and bytes have two: with offsets of 32 and of 64 bits.
BOOL, UTF8, LARGE_UTF8, BINARY, LARGE_BINARY, NULL, F32, F64, DATE = range(8, 17)
TIME, TIMESTAMP, ZONED, DECIMAL32 = 17, 21, 25, 29
DECIMAL64, DECIMAL128 = 30, 31
_TIMES = [f"time({unit})" for unit in UNITS]
_TIMESTAMPS = [f"timestamp({unit}{zone})" for zone in ("", ",UTC") for unit in UNITS]
_NAMES = (*INTEGERS, "bool", "utf8", "utf8", "binary", "binary", "null", "f32", "f64", "date", *_TIMES, *_TIMESTAMPS)
_CODES = {name: code for code, name in reversed(list(enumerate(_NAMES)))}

# By the codes: bytes of an item, or 0 if it has none, and items of ctypes, which has none of 128 bits.
WIDTHS = (1, 2, 4, 8, 1, 2, 4, 8, *[0] * 6, 4, 8, 4, 4, 4, 8, 8, *[8] * 8, 4, 8, 16)
_SIGNED = {4: ctypes.c_int32, 8: ctypes.c_int64}
ITEMS: dict[int, Any] = {
    **dict(enumerate((ctypes.c_uint8, ctypes.c_uint16, ctypes.c_uint32, ctypes.c_uint64))),
    **dict(enumerate((ctypes.c_int8, ctypes.c_int16, ctypes.c_int32, ctypes.c_int64), 4)),
    **{code: _SIGNED[width] for code, width in enumerate(WIDTHS) if code >= DATE and width in _SIGNED},
    **{F32: ctypes.c_float, F64: ctypes.c_double},
}
# How many digits decimals of a code have at most.
DIGITS = {DECIMAL32: 9, DECIMAL64: 18, DECIMAL128: 38}


class ColumnKind(NamedTuple):
    """A kind of column: its code, and of decimals how many digits a number has at most, and how many of them behind the point."""

    code: int
    precision: int = 0
    scale: int = 0

    def __str__(self) -> str:
        return f"decimal({self.precision},{self.scale})" if self.code >= DECIMAL32 else _NAMES[self.code]

    @property
    def width(self) -> int:
        """How many bytes an item has: 0 if a column has bits, bytes or nothing."""
        return WIDTHS[self.code]

    @property
    def is_integer(self) -> bool:
        return self.code < BOOL

    @property
    def is_logical(self) -> bool:
        return self.code > NULL

    @property
    def is_text(self) -> bool:
        return self.code in (UTF8, LARGE_UTF8)

    @property
    def has_offsets(self) -> bool:
        return UTF8 <= self.code <= LARGE_BINARY

    @property
    def unit(self) -> str:
        """The unit of times and timestamps."""
        return list(UNITS)[(self.code - TIME) % 4]

    @property
    def general(self) -> ColumnKind:
        """The one kind of these values, whatever the width of offsets or of decimals."""
        return self._replace(code=DECIMAL128) if self.code >= DECIMAL32 else ColumnKind(_CODES[_NAMES[self.code]])

    @property
    def large(self) -> ColumnKind:
        """The kind of these values with offsets of 64 bits."""
        return ColumnKind(LARGE_UTF8 if self.is_text else LARGE_BINARY) if self.has_offsets else self


I64, U64 = ColumnKind(Kind.I64), ColumnKind(Kind.U64)


def decimal_kind(precision: int, scale: int, code: int = DECIMAL128) -> ColumnKind | None:
    """Decimals of this precision and scale, if there are such of the code's width."""
    return ColumnKind(code, precision, scale) if 1 <= precision <= DIGITS[code] and 0 <= scale <= precision else None


_DECIMAL = re.compile(r"decimal\((\d{1,2}),(\d{1,2})\)")
_WORDS = [*dict.fromkeys(_NAMES[: DATE + 1]), "time(us)", "timestamp(us)", "timestamp(us,UTC)", "decimal(10,2)"]


def kind_of(of: object) -> ColumnKind:
    """The kind as a person writes it, perhaps with a question mark behind it."""
    word = re.sub(r"\s*([(),])\s*", r"\1", str(of).strip()).removesuffix("?").rstrip()
    if word in _CODES:
        return ColumnKind(_CODES[word])
    found = _DECIMAL.fullmatch(word)
    kind = decimal_kind(int(found[1]), int(found[2])) if found else None
    if kind is None:
        raise UnknownKind(f"{of} is no kind of a column: these are {', '.join(_WORDS)}, and the like with a unit of {', '.join(UNITS)}")
    return kind
