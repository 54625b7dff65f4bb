# SPDX-License-Identifier: Apache-2.0
# SPDX-FileCopyrightText: Copyright the Vortex contributors; ported to Rattle and changed
"""Statistics of columns."""

from __future__ import annotations

import ctypes
from collections.abc import Mapping
from contextlib import closing
from ctypes import byref, c_size_t
from typing import Any, overload

from . import _library
from ._columns import Column, nulls
from ._errors import KindsDiffer, NoColumn, NotAValue, UnknownKind
from ._kinds import BOOL, NULL, ColumnKind, kind_of
from ._library import BUFFER_TOO_SMALL, NOT_A_VALUE, Fault, Parts, check_column, new_buffer, raw_kind, size
from ._reading import each_batch
from ._tables import Batch
from ._types import DType
from ._values import value_of

__all__ = ["Statistics", "TableStatistics", "statistics"]


def _check(status: int, fault: Fault) -> None:
    """Raises what the status of a call over statistics in bytes says."""
    if status == NOT_A_VALUE:
        raise NotAValue("a bound is of no value of the kind")
    check_column(status, fault)


# How many bytes the statistics of no rows have, behind the name of a logical type.
_NO_ROWS = 18


class Statistics:
    """How many rows a column has, how many are null, and bounds of the others. `statistics` makes one.

    Every value is from `lower` to `upper`, if these are there. A bound that is exact is a value of the column, and else only a
    bound: strings and bytes are cut. `a | b` are the statistics of both columns together, whatever the grouping and the
    order. `bytes` writes them, for a file or another program, and they pickle. Among floats NaN is the greatest value and equal
    to itself, and the two zeros are one value: a zero that is a bound is 0.0.

    >>> both = statistics([3, None, 5]) | statistics([4, 8])
    >>> both
    Statistics('i64', rows=5, nulls=1, lower=3, upper=8)
    >>> Statistics.from_bytes(bytes(both), "i64") == both
    True
    """

    __slots__ = ("_kind", "_bytes", "_read")
    _kind: ColumnKind
    _bytes: bytes
    _read: tuple[Parts, bytes, bytes] | None

    def __init__(self) -> None:
        raise TypeError("doqallin.statistics makes statistics")

    @classmethod
    def _of(cls, kind: ColumnKind, data: bytes) -> Statistics:
        """The statistics of a kind. The width of offsets and of decimals is none of theirs."""
        made = object.__new__(cls)
        made._kind, made._bytes, made._read = kind.general, data, None
        return made

    @classmethod
    def from_bytes(cls, data: bytes, of: str | DType) -> Statistics:
        """The statistics of this kind of column that the bytes are. Bytes from anywhere are safe to read.

        Raises BadBytes with the first byte that no statistics of the kind have there.

        >>> Statistics.from_bytes(bytes.fromhex("011f000000000000000300000000000000010d020d05"), "i32")
        Statistics('i32', rows=3, nulls=1, lower=2, upper=5)
        """
        made = cls._of(kind_of(of), bytes(data))
        made._parts()
        return made

    def _parts(self) -> tuple[Parts, bytes, bytes]:
        """What they say, and the bytes of the bounds."""
        if self._read is None:
            kind, data, parts, fault = raw_kind(self._kind), self._bytes, Parts(), Fault()
            length = max(16, len(data))
            lower, upper = new_buffer(length), new_buffer(length)
            status = _library.read_typed(byref(kind), data, len(data), lower, length, upper, length, byref(parts), byref(fault))
            _check(status, fault)
            self._read = parts, ctypes.string_at(lower, parts.lower_length), ctypes.string_at(upper, parts.upper_length)
        return self._read

    def _bound(self, data: bytes) -> Any:
        if self._kind.width:
            return value_of(self._kind, data)
        if self._kind.code == BOOL:
            return data != b"\0"
        return data.decode() if self._kind.is_text else data

    @property
    def kind(self) -> str:
        """The kind of the column: `i64`, `utf8`, `decimal(10,2)` and so on."""
        return str(self._kind)

    @property
    def row_count(self) -> int:
        """How many rows there are."""
        return int(self._parts()[0].row_count)

    @property
    def null_count(self) -> int | None:
        """How many rows are null, or None if that is not known."""
        parts = self._parts()[0]
        return int(parts.null_count) if parts.has_null_count else None

    @property
    def lower(self) -> Any:
        """No value is below it. None if there is no value, or no such bound."""
        parts, lower, _ = self._parts()
        return self._bound(lower) if parts.has_lower else None

    @property
    def upper(self) -> Any:
        """No value is above it. None if there is no value, or no such bound."""
        parts, _, upper = self._parts()
        return self._bound(upper) if parts.has_upper else None

    @property
    def lower_is_exact(self) -> bool:
        """Whether some value is the lower bound."""
        return bool(self._parts()[0].lower_is_exact)

    @property
    def upper_is_exact(self) -> bool:
        """Whether some value is the upper bound."""
        return bool(self._parts()[0].upper_is_exact)

    def __or__(self, other: Statistics) -> Statistics:
        if not isinstance(other, Statistics):
            return NotImplemented
        kind = other._kind if self._kind.code == NULL else self._kind
        if self._kind != other._kind and NULL not in (self._kind.code, other._kind.code):
            raise KindsDiffer(f"statistics of {self.kind} and of {other.kind} have no bounds together")
        one, two, count, fault = self._as(kind), other._as(kind), c_size_t(), Fault()
        # Each bound is that of one of the two.
        length = len(one) + len(two)
        raw, buffer = raw_kind(kind), new_buffer(length)
        status = _library.merge_typed(byref(raw), one, len(one), two, len(two), buffer, length, byref(count), byref(fault))
        _check(status, fault)
        return Statistics._of(kind, ctypes.string_at(buffer, count.value))

    def _as(self, kind: ColumnKind) -> bytes:
        """The bytes, and of nulls alone those of this kind: statistics of a logical type begin with its name."""
        if self._kind.code != NULL or not kind.is_logical:
            return self._bytes
        return bytes(_of_column(nulls(kind, 0), 0))[:-_NO_ROWS] + self._bytes

    def __bytes__(self) -> bytes:
        return self._bytes

    def __eq__(self, other: object) -> bool:
        if not isinstance(other, Statistics):
            return NotImplemented
        return (self._kind, self._bytes) == (other._kind, other._bytes)

    def __hash__(self) -> int:
        return hash((self._kind, self._bytes))

    def __reduce__(self) -> tuple[Any, ...]:
        return Statistics.from_bytes, (self._bytes, self.kind)

    def __repr__(self) -> str:
        def bound(name: str, is_exact: bool) -> str:
            try:
                value = getattr(self, name)
                return "" if value is None else f", {name}={value!r}" + ("" if is_exact else " (cut)")
            except NotAValue as error:
                return f", {name}=<{error.item}>"

        lower, upper = bound("lower", self.lower_is_exact), bound("upper", self.upper_is_exact)
        return f"Statistics({self.kind!r}, rows={self.row_count}, nulls={self.null_count}{lower}{upper})"


class TableStatistics(dict[str, Statistics]):
    """The statistics of a table's columns by name. `left_out` says of each column that has none why not.

    A filter may be asked of them all the same: a column without statistics leaves all open.
    """

    left_out: dict[str, str]

    def __init__(self, known: Mapping[str, Statistics], left_out: Mapping[str, str]) -> None:
        super().__init__(known)
        self.left_out = dict(left_out)

    def __or__(self, other: Any) -> Any:
        """The statistics of both tables together, of the columns that are known of each."""
        if not isinstance(other, TableStatistics):
            return NotImplemented
        return TableStatistics({name: self[name] | other[name] for name in self if name in other}, self.left_out | other.left_out)

    def __reduce__(self) -> tuple[Any, ...]:
        return TableStatistics, (dict(self), self.left_out)

    def __repr__(self) -> str:
        return f"TableStatistics({dict(self)!r}, left_out={self.left_out!r})"


def _of_column(one: Column, max_bytes: int) -> Statistics:
    length = 18 + 4 * (1 + min(max_bytes, 256))
    raw, count, fault = one._raw(), c_size_t(), Fault()
    status = BUFFER_TOO_SMALL
    while status == BUFFER_TOO_SMALL:
        buffer = new_buffer(length)
        status = _library.column_statistics(byref(raw), max_bytes, buffer, length, byref(count), byref(fault))
        length = count.value
    check_column(status, fault)
    return Statistics._of(one._kind, ctypes.string_at(buffer, length))


def _of_table(table: Mapping[str, Column], max_bytes: int, strict: bool) -> TableStatistics:
    known, left_out = {}, {}
    for name in table:
        try:
            known[name] = _of_column(table[name], max_bytes)
        except (UnknownKind, NoColumn) as error:
            if strict:
                raise
            left_out[name] = str(error)
    return TableStatistics(known, left_out)


def _of_batch(batch: Batch, max_bytes: int, strict: bool) -> Any:
    """The statistics of a column, or those of a batch by name."""
    return _of_column(batch, max_bytes) if isinstance(batch, Column) else _of_table(batch, max_bytes, strict)


@overload
def statistics(values: Mapping[str, Any], max_bytes: int = 16, of: str | DType | None = None, *, strict: bool = False) -> TableStatistics: ...


@overload
def statistics(
    values: Column | list[Any] | tuple[Any, ...], max_bytes: int = 16, of: str | DType | None = None, *, strict: bool = False
) -> Statistics: ...


@overload
def statistics(values: Any, max_bytes: int = 16, of: str | DType | None = None, *, strict: bool = False) -> Any: ...


def statistics(values: Any, max_bytes: int = 16, of: str | DType | None = None, *, strict: bool = False) -> Any:
    """The statistics of a column, with bounds that are strings or bytes cut to so many bytes.

    It takes what `column` takes. The chunks of a stream are merged, each read and released before the next one. Of a table or a
    record batch, of a DataFrame and of a dict of columns, it is a dict of statistics by name. Its `left_out` names the columns
    whose kind is not taken, and says why; with `strict` the first of these raises UnknownKind.

    Raises NotUtf8, BadOffsets, TooShort and NotAValue if the memory of a column is not as its kind has it.

    >>> statistics(["apple", "banana", None], max_bytes=3)
    Statistics('utf8', rows=3, nulls=1, lower='app' (cut), upper='bao' (cut))
    >>> known = statistics({"fare": [12.5, 7.25], "city": ["Oslo", None], "odd": [[1], [2]]})
    >>> known["fare"].upper, known.left_out
    (12.5, {'odd': 'a list of list is no column'})
    """
    most = size(max_bytes)
    whole: Any = None
    with closing(each_batch(values, of)) as each:
        for batch in each:
            part = _of_batch(batch, most, strict)
            del batch
            whole = part if whole is None else whole | part
    return whole
