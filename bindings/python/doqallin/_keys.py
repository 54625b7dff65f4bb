# SPDX-License-Identifier: Apache-2.0
# SPDX-FileCopyrightText: Copyright the Vortex contributors; ported to Rattle and changed
"""Keys of rows: bytes that sort as the rows do."""

from __future__ import annotations

import ctypes
from array import array
from collections.abc import Iterable, Mapping, Sequence
from ctypes import byref, c_size_t
from typing import Any

from . import _library
from ._arrays import is_frame
from ._arrow import is_arrow
from ._columns import EMPTY, Buffer, Column, Room, buffer_of
from ._errors import KindsDiffer, WrongLength
from ._kinds import BINARY, LARGE_BINARY, ColumnKind, kind_of
from ._library import BUFFER_TOO_SMALL, ColumnBuffers, Fault, RawKind, check_column, new_buffer, new_offsets, raw_kind
from ._reading import column, columns, raw_columns
from ._types import DType

__all__ = ["from_row_keys", "row_keys"]


def _options(count: int, descending: bool | Sequence[bool], nulls_first: bool | Sequence[bool]) -> bytes:
    """The option byte of each column."""

    def each(option: bool | Sequence[bool]) -> list[bool]:
        found = [option] * count if isinstance(option, bool) else list(option)
        if len(found) != count:
            raise WrongLength(f"there are {len(found)} options for {count} columns")
        return found

    return bytes(bool(down) + 2 * bool(first) for down, first in zip(each(descending), each(nulls_first)))


def _width(one: Column) -> int:
    """About how many bytes the keys of a column have. Too few cost a second call."""
    if one._kind.width:
        return (2 + 2 * one._kind.width if one._kind.width == 16 else 1 + one._kind.width) * len(one)
    if not one._kind.has_offsets or not len(one):
        return len(one)
    first, last = one._ends(0, 1)[0], one._ends(len(one), 0)[0]
    return 2 * len(one) + min(max(0, last - first), one._values.length)


def row_keys(
    table: Any, *, descending: bool | Sequence[bool] = False, nulls_first: bool | Sequence[bool] = True
) -> Column:
    """A column of bytes: the key of each row of several columns. Keys sort by their bytes as the rows do, column by column.

    It takes a list of columns, an Arrow table or record batch, a DataFrame, or a dict. The options are for all columns, or one for each. An
    index of a database over the keys needs no types.

    >>> keys = row_keys([["b", "a", "a"], [1, 2, None]], descending=[False, True], nulls_first=False)
    >>> sorted(range(3), key=keys.__getitem__)
    [1, 2, 0]
    """
    is_table = isinstance(table, Mapping) or is_arrow(table) or is_frame(table)
    each = list(columns(table).values()) if is_table else [column(part) for part in table]
    options = _options(len(each), descending, nulls_first)
    raws, fault, rows = raw_columns(each), Fault(), len(each[0]) if each else 0
    offsets, count = new_offsets(rows + 1), c_size_t(sum(map(_width, each)))
    status = BUFFER_TOO_SMALL
    while status == BUFFER_TOO_SMALL:
        length = count.value
        buffer = new_buffer(length)
        status = _library.row_keys(raws, len(each), options, len(options), offsets, rows + 1, buffer, length, byref(count), byref(fault))
    check_column(status, fault, f"column {fault.column}: ")
    keys = Buffer(ctypes.addressof(buffer), count.value, buffer) if count.value else EMPTY
    return Column._of(ColumnKind(LARGE_BINARY), rows, keys, Buffer(ctypes.addressof(offsets), 8 * (rows + 1), offsets))


def _offsets_of(keys: Column) -> Buffer:
    """Offsets of 64 bits, the first that of the first row."""
    if not len(keys):
        return buffer_of(array("Q", [0]))
    item = ctypes.c_uint32 if keys._kind.code == BINARY else ctypes.c_uint64
    at = keys._offsets.address + ctypes.sizeof(item) * keys._offset
    if keys._kind.code == LARGE_BINARY and at % 8 == 0:
        return Buffer(at, len(keys) + 1, keys._offsets.owner)
    return buffer_of(array("Q", list((item * (len(keys) + 1)).from_address(at))))


def from_row_keys(
    keys: Any, kinds: Iterable[str | DType], *, descending: bool | Sequence[bool] = False, nulls_first: bool | Sequence[bool] = True
) -> list[Column]:
    """The columns of the rows whose keys these are, by the options that the keys were made with.

    Raises BadBytes with the first byte that no key of the kinds has there, and NotAValue with the first key whose number is of no
    value of its kind. Keys from anywhere are safe to read. A float is keyed as the integer that stores it: bytes do not say which
    of the two they are of, and the kind does. So -0.0 comes back as 0.0, and each NaN as one NaN.

    >>> from_row_keys(row_keys([["b", None], [1, 2]]), ["utf8?", "i64"])
    [Column('utf8', ['b', None]), Column('i64', [1, 2])]
    >>> from_row_keys(row_keys([[0.5, -0.0]]), ["f64"])
    [Column('f64', [0.5, 0.0])]
    """
    one = column(keys, "binary")
    if one.null_count:
        raise KindsDiffer("a null is no key")
    each = [kind_of(of).large for of in kinds]
    options = _options(len(each), descending, nulls_first)
    places, rows, fault = _offsets_of(one), len(one), Fault()
    made = [Room(kind, rows, one._values.length) for kind in each]
    raws = (ColumnBuffers * max(1, len(made)))(*(buffers.raw() for buffers in made))
    status = _library.columns_of_typed_keys(
        (RawKind * max(1, len(each)))(*map(raw_kind, each)),
        len(each),
        options,
        len(options),
        places.address,
        rows + 1,
        one._values.address,
        one._values.length,
        raws,
        len(made),
        byref(fault),
    )
    check_column(status, fault)
    return [buffers.column(rows, raw.count) for buffers, raw in zip(made, raws)]
