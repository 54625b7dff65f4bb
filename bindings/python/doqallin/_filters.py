# SPDX-License-Identifier: Apache-2.0
# SPDX-FileCopyrightText: Copyright the Vortex contributors; ported to Rattle and changed
"""Filters over columns, in SQL's words."""

from __future__ import annotations

import ctypes
import enum
import re
from array import array
from collections.abc import Iterable, Mapping, Sequence
from contextlib import closing
from ctypes import byref, c_size_t
from itertools import accumulate, compress
from typing import Any, overload

from . import _library
from ._columns import Column, buffer_of, fitted, joined
from ._errors import BadFilter, at
from ._kinds import BOOL, ColumnKind, kind_of
from ._library import BAD_BYTES, BAD_FILTER, BUFFER_TOO_SMALL, Fault, Mistake, NamedKind, check_column, encoded, new_buffer, size
from ._reading import each_batch, named, raw_columns, table_of_parts
from ._statistics import Statistics
from ._tables import Table
from ._types import DType

__all__ = ["Filter", "Outcomes", "Zones"]

_MISTAKES = (
    "expected a filter",
    "expected a column",
    "expected an operator",
    "expected a literal",
    "expected a pattern that its escape does not end",
    "expected a string of one character",
    "expected null",
    "expected and",
    "expected (",
    "expected )",
    "expected a comma",
    "expected the end",
    "no such column",
    "a literal of another type than the column",
    "no literal is of the column's type",
    "no value of the column's type is written as the number",
    "no token",
    "nested too deep",
)


def filter_mistake(text: str, place: int, expected: int) -> BadFilter:
    """What is wrong at a byte of a text."""
    return at(BadFilter(f"byte {place} of {text!r}: {_MISTAKES[expected]}"), place)


class Outcomes(enum.IntFlag):
    """What a filter can be on the rows of a zone."""

    MAY_BE_FALSE = 1
    MAY_BE_UNKNOWN = 2
    MAY_BE_TRUE = 4


_OUTCOMES = [Outcomes(number) for number in range(8)]
# By a byte of outcomes, whether the filter can be true.
_MAY_BE_TRUE = bytes(outcomes >> 2 & 1 for outcomes in range(256))


class Zones(Sequence[Mapping[str, Statistics]]):
    """Zones of a table, each the statistics of its columns by name. A filter reads all of them in one call.

    The columns of a zone that have no statistics leave all open.

    >>> zones = Zones([{"fare": statistics([3, 5])}, {"fare": statistics([7, 90])}])
    >>> Filter("fare > 6", {"fare": "i64"}).prune(zones)
    [1]
    """

    __slots__ = ("_zones", "_packed")

    def __init__(self, zones: Iterable[Mapping[str, Statistics]]) -> None:
        self._zones = list(zones)
        self._packed: dict[tuple[tuple[str, ColumnKind], ...], tuple[bytes, array[int]]] = {}

    @overload
    def __getitem__(self, place: int) -> Mapping[str, Statistics]: ...

    @overload
    def __getitem__(self, place: slice) -> Zones: ...

    def __getitem__(self, place: int | slice) -> Any:
        return Zones(self._zones[place]) if isinstance(place, slice) else self._zones[place]

    def __len__(self) -> int:
        return len(self._zones)

    def _pieces(self, columns: tuple[tuple[str, ColumnKind], ...]) -> tuple[bytes, array[int]]:
        """The bytes of the statistics of these columns, zone by zone, and where each piece begins."""
        if columns not in self._packed:
            pieces = [zone[name]._as(kind) if name in zone else b"" for zone in self._zones for name, kind in columns]
            self._packed[columns] = b"".join(pieces), array("Q", accumulate(map(len, pieces), initial=0))
        return self._packed[columns]


def _places(mask: bytes) -> list[int]:
    """The places of the bytes that are 1. Few are searched for, which takes an eighth of what a look at each byte does."""
    if 8 * mask.count(1) > len(mask):
        return list(compress(range(len(mask)), mask))
    return [found.start() for found in re.finditer(b"\x01", mask)]


# A string, a name in quotes, or a bare word.
_WORDS = re.compile(r"""'(?:[^']|'')*'|"((?:[^"]|"")*)"|([A-Za-z_][A-Za-z0-9_]*)""")


def _named_in(text: str, names: Iterable[str]) -> tuple[str, ...]:
    """Those of the names that a filter may name: that are words of its text. With a `$` a column may be named by its number."""
    words: set[str] = set()
    for found in _WORDS.finditer(text):
        quoted, bare = found.groups()
        words.update([bare] if bare is not None else [] if quoted is None else [quoted.replace('""', '"')])
    return tuple(name for name in names if name in words or "$" in text)


class Filter:
    """A filter of rows, as SQL's WHERE has it: it is true, false or unknown of a row, and a row matches only if it is true.

    `text` is in the words of docs/FILTERS.md: comparisons, `is null`, `in`, `between`, `like`, `ilike`, `starts_with`, `and`,
    `or`, `not`. `schema` has the kind of each column that it may name: integers, `bool`, `utf8`, `binary`, `f32`, `f64`,
    `decimal(10,2)`, `date`, `time(us)`, `timestamp(us)` and `timestamp(us,UTC)`, whose unit is `s`, `ms`, `us` or `ns`.
    `literal` writes a value of Python as a text has it. Among floats NaN is above all and equal to itself, as in
    PostgreSQL, and not as in Python.

    Raises BadFilter with the place of a mistake. More than `depth` connectives and parentheses that nest are one: each level
    takes stack.

    >>> wanted = Filter("city = 'Oslo' and fare >= 10", {"city": "utf8?", "fare": "u32"})
    >>> zone = {"city": statistics(["Bergen", "Moss"]), "fare": statistics([3, 12], of="u32")}
    >>> wanted.may_match(zone), wanted.outcomes(zone)
    (False, <Outcomes.MAY_BE_FALSE: 1>)
    >>> list(wanted.mask({"city": ["Oslo", "Oslo", None], "fare": [12, 3, 12]}))
    [True, False, False]
    >>> from datetime import date
    >>> list(Filter("day < '2026-03-01'", {"day": "date?"}).mask({"day": [date(2026, 2, 28), None]}))
    [True, False]
    """

    __slots__ = ("text", "schema", "depth", "_names", "_kinds", "_prepared")

    def __init__(self, text: str, schema: Mapping[str, str | DType], depth: int = 32) -> None:
        self.text, self.depth = text, depth
        self.schema = dict(schema)
        kinds = {name: kind_of(of) for name, of in self.schema.items()}
        # The columns that the text may name. No other is looked at.
        self._names = _named_in(text, kinds)
        self._kinds = tuple(kinds[name] for name in self._names)
        self._prepared = self._prepare(self._kinds)

    def _prepare(self, each: tuple[ColumnKind, ...]) -> bytes:
        """The filter, prepared for columns of these kinds."""
        text, names = encoded(self.text), [encoded(name) for name in self._names]
        kinds = (NamedKind * max(1, len(names)))(*[NamedKind(name, len(name), *kind) for name, kind in zip(names, each)])
        count, mistake, deep = c_size_t(256 + 4 * len(text)), Mistake(), size(self.depth)
        status = BUFFER_TOO_SMALL
        while status == BUFFER_TOO_SMALL:
            length = count.value
            buffer = new_buffer(length)
            status = _library.prepare_filter(text, len(text), kinds, len(names), deep, buffer, length, byref(count), byref(mistake))
        if status == BAD_FILTER:
            raise filter_mistake(self.text, mistake.place, mistake.expected)
        check_column(status, Fault())
        return ctypes.string_at(buffer, count.value)

    def _of_zones(self, zones: Zones) -> bytes:
        """A byte for each zone."""
        prepared = self._prepared
        data, offsets = zones._pieces(tuple(zip(self._names, self._kinds)))
        outcomes, fault = new_buffer(len(zones)), Fault()
        status = _library.filter_outcomes(
            prepared, len(prepared), data, len(data), buffer_of(offsets).address, len(offsets), size(self.depth), outcomes, len(zones), byref(fault)
        )
        if status == BAD_BYTES and self._names:
            zone, place = divmod(fault.column, len(self._names))
            check_column(status, fault, f"zone {zone}, column {self._names[place]!r}: ")
        check_column(status, fault)
        return bytes(outcomes)

    def outcomes(self, zone: Mapping[str, Statistics]) -> Outcomes:
        """What the filter can be on the rows of a zone: the truth of each row is among these."""
        return _OUTCOMES[self._of_zones(Zones([zone]))[0]]

    def may_match(self, zone: Mapping[str, Statistics]) -> bool:
        """Whether a row of the zone may match. If not, the zone need not be read."""
        return bool(self.outcomes(zone) & Outcomes.MAY_BE_TRUE)

    def must_match(self, zone: Mapping[str, Statistics]) -> bool:
        """Whether each row of the zone matches. If so, no row need be tested."""
        return not self.outcomes(zone) & (Outcomes.MAY_BE_FALSE | Outcomes.MAY_BE_UNKNOWN)

    def prune(self, zones: Iterable[Mapping[str, Statistics]]) -> list[int]:
        """The places of the zones that may match, by one call. `Zones` are quickest to ask more than once."""
        asked = zones if isinstance(zones, Zones) else Zones(zones)
        outcomes = self._of_zones(asked)
        return _places(outcomes.translate(_MAY_BE_TRUE))

    def outcomes_of(self, zones: Iterable[Mapping[str, Statistics]]) -> list[Outcomes]:
        """The outcomes of each zone, by one call."""
        asked = zones if isinstance(zones, Zones) else Zones(zones)
        return [_OUTCOMES[outcomes] for outcomes in self._of_zones(asked)]

    def mask(self, table: Any) -> Column:
        """A column of bools: whether each row matches. It takes an Arrow table or record batch, a DataFrame, or a dict of columns.

        There is a bit for each row of the table, also if the schema has no columns. Columns that the text does not name are not
        looked at, whatever they hold. Raises NoColumn if one that it names is not there, KindsDiffer if one is of another kind
        than in the schema, and NotAValue with the first row whose number is of no value of the kind.
        """
        if isinstance(table, Mapping):
            return self._of_batch(table_of_parts(table, self.schema.get))
        masks = []
        with closing(each_batch(table)) as each:
            for batch in each:
                masks.append(self._of_batch(self._alone(batch) if isinstance(batch, Column) else batch))
                del batch
        return joined(masks)

    def _alone(self, one: Column) -> Table:
        """A column as a table of the first column of the schema."""
        return Table({name: lambda: one for name in list(self.schema)[:1]}, len(one))

    def _of_batch(self, batch: Table) -> Column:
        """The mask of a batch."""
        each = [fitted(named(batch, name), self.schema[name]) for name in self._names]
        raws, fault = raw_columns(each), Fault()
        rows = len(each[0]) if each else batch.row_count
        length = (rows + 7) // 8
        buffer, prepared = new_buffer(length), self._prepared
        status = _library.filter_mask(prepared, len(prepared), raws, len(each), rows, size(self.depth), buffer, length, byref(fault))
        check_column(status, fault, f"column {self._names[fault.column]!r}: " if fault.column < len(self._names) else "")
        return Column._of(ColumnKind(BOOL), rows, buffer_of(bytes(buffer)))

    def __eq__(self, other: object) -> bool:
        if not isinstance(other, Filter):
            return NotImplemented
        return (self.text, self._names, self._kinds) == (other.text, other._names, other._kinds)

    def __hash__(self) -> int:
        return hash((self.text, self._names, self._kinds))

    def __reduce__(self) -> tuple[Any, ...]:
        return Filter, (self.text, {name: str(of) for name, of in self.schema.items()}, self.depth)

    def __repr__(self) -> str:
        return f"Filter({self.text!r}, { {name: str(of) for name, of in self.schema.items()} })"
