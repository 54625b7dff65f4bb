# SPDX-License-Identifier: Apache-2.0
# SPDX-FileCopyrightText: Copyright the Vortex contributors; ported to Rattle and changed
"""Casts of integers, one by one and by columns."""

from __future__ import annotations

import ctypes
from ctypes import byref, c_uint64
from typing import Any, overload

from . import _library
from ._columns import EMPTY, Buffer, Column, bitmap_of, bits_of, buffer_of
from ._errors import CannotCast, NotANumber, UnknownKind, at
from ._kinds import ColumnKind, Kind, kind_of
from ._library import NONE, Fault, check, check_column, new_buffer
from ._reading import column
from ._types import DType

__all__ = ["cast"]


@overload
def cast(number: int, source: Kind, target: Kind) -> int | None: ...


@overload
def cast(values: Any, to: str | DType | Kind, /) -> Column: ...


def cast(number: Any, source: Any, target: Kind | None = None) -> Any:
    """The number, or None if the target type does not have it. Or, of two arguments, the column as another kind of integers.

    Raises NotANumber if the source kind does not have the number. Of a column, raises CannotCast with the first row whose value
    the kind does not have.

    >>> cast(200, Kind.I64, Kind.U8), cast(-1, Kind.I64, Kind.U8)
    (200, None)
    >>> cast([200, None, 7], "u8")
    Column('u8', [200, None, 7])
    >>> cast([200, None, -7], "u8")
    Traceback (most recent call last):
    doqallin.CannotCast: u8 does not have the value at index 2
    """
    return _cast_column(number, source) if target is None else _cast_number(number, source, target)


def _cast_number(number: int, source: Kind, target: Kind) -> int | None:
    source, target = Kind(source), Kind(target)
    least, end = (-(2**63), 2**63) if source.is_signed else (0, 2**64)
    if not least <= number < end:
        raise NotANumber(f"{source.name} does not have {number}")
    out = c_uint64()
    status = _library.cast_integer(source, number % 2**64, target, byref(out))
    if status == NONE:
        return None
    check(status)
    return ctypes.c_int64(out.value).value if target.is_signed else out.value


def _cast_column(values: Any, to: str | DType | Kind) -> Column:
    kind = ColumnKind(to) if isinstance(to, Kind) else kind_of(to)
    one = column(values)
    if not (kind.is_integer and one._kind.is_integer):
        raise UnknownKind(f"a column of {one.kind} has no cast to {kind}: both are to be integers")
    length = kind.width * len(one)
    raw, buffer, fault = one._raw(), new_buffer(length), Fault()
    status = _library.cast_front(byref(raw), kind.code, buffer, length, byref(fault))
    if status == NONE:
        raise at(CannotCast(f"{kind} does not have the value at index {fault.place}"), fault.place)
    check_column(status, fault)
    validity = EMPTY
    if one._validity.length:
        validity = buffer_of(bitmap_of(bits_of(one._validity, one._offset, len(one)), len(one)))
    made = Buffer(ctypes.addressof(buffer), length, buffer) if length else EMPTY
    return Column._of(kind, len(one), made, validity=validity)
