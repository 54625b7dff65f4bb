# SPDX-License-Identifier: Apache-2.0
# SPDX-FileCopyrightText: Copyright the Vortex contributors; ported to Rattle and changed
"""Arrow's C data interface: its structures, its capsules, and the format of each kind of column."""

from __future__ import annotations

import ctypes
from ctypes import CFUNCTYPE, POINTER, c_char_p, c_int, c_int64, c_void_p
from typing import Any

from ._kinds import DECIMAL32, DECIMAL64, DECIMAL128, FORMATS, TIMESTAMP, ColumnKind, decimal_kind

__all__: list[str] = []


class Schema(ctypes.Structure):
    pass


class Array(ctypes.Structure):
    pass


class Stream(ctypes.Structure):
    pass


RELEASES: dict[type, Any] = {of: CFUNCTYPE(None, POINTER(of)) for of in (Schema, Array, Stream)}
GetSchema = CFUNCTYPE(c_int, POINTER(Stream), POINTER(Schema))
GetNext = CFUNCTYPE(c_int, POINTER(Stream), POINTER(Array))
GetLastError = CFUNCTYPE(c_char_p, POINTER(Stream))

Schema._fields_ = [
    ("format", c_char_p),
    ("name", c_char_p),
    ("metadata", c_void_p),
    ("flags", c_int64),
    ("n_children", c_int64),
    ("children", POINTER(POINTER(Schema))),
    ("dictionary", POINTER(Schema)),
    ("release", RELEASES[Schema]),
    ("private_data", c_void_p),
]
Array._fields_ = [
    ("length", c_int64),
    ("null_count", c_int64),
    ("offset", c_int64),
    ("n_buffers", c_int64),
    ("n_children", c_int64),
    ("buffers", POINTER(c_void_p)),
    ("children", POINTER(POINTER(Array))),
    ("dictionary", POINTER(Array)),
    ("release", RELEASES[Array]),
    ("private_data", c_void_p),
]
Stream._fields_ = [
    ("get_schema", GetSchema),
    ("get_next", GetNext),
    ("get_last_error", GetLastError),
    ("release", RELEASES[Stream]),
    ("private_data", c_void_p),
]

# The names of capsules.
CAPSULES: dict[type, bytes] = {Schema: b"arrow_schema", Array: b"arrow_array", Stream: b"arrow_array_stream"}

_UNITS = "smun"
_MOMENTS = [f"ts{unit}:{zone}" for zone in ("", "UTC") for unit in _UNITS]
# By the codes, but for decimals, whose formats have their digits.
_FORMATS: tuple[str, ...] = (*FORMATS, *"buUzZnfg", "tdD", *(f"tt{unit}" for unit in _UNITS), *_MOMENTS)
# A date of 64 bits counts milliseconds, and may have a time of day in them: so it is a timestamp.
_CODES = {**{form: code for code, form in enumerate(_FORMATS)}, "tdm": TIMESTAMP + _UNITS.index("m")}
_DECIMALS = {"32": DECIMAL32, "64": DECIMAL64, "128": DECIMAL128}


def kind_of_format(text: str) -> ColumnKind | None:
    """The kind of a format, if columns have it."""
    head, _, rest = text.partition(":")
    if head == "d":
        return _decimal_of(rest)
    if head.startswith("ts"):
        # A zone may have any name: such timestamps count in UTC.
        text = f"{head}:{'UTC' if rest else ''}"
    return ColumnKind(_CODES[text]) if text in _CODES else None


def _decimal_of(digits: str) -> ColumnKind | None:
    parts = [*digits.split(","), "128"][:3]
    if len(parts) < 3 or parts[2] not in _DECIMALS or not all(part.isdecimal() for part in parts):
        return None
    return decimal_kind(int(parts[0]), int(parts[1]), _DECIMALS[parts[2]])


def format_of(kind: ColumnKind) -> str:
    """The format of a kind. That of 128 bits is not named, since only newer readers know that decimals may have others."""
    if kind.code not in _DECIMALS.values():
        return _FORMATS[kind.code]
    bits = 8 * kind.width
    return f"d:{kind.precision},{kind.scale}" + (f",{bits}" if bits < 128 else "")
