# SPDX-License-Identifier: Apache-2.0
# SPDX-FileCopyrightText: Copyright the Vortex contributors; ported to Rattle and changed
"""Records as columns. The library reads each field, and writes it where the column lies."""

from __future__ import annotations

from collections.abc import Iterable, Sequence
from ctypes import byref, c_size_t
from typing import NamedTuple

from . import _library
from ._columns import Column, Room, joined, nulls
from ._errors import NoColumn
from ._kinds import ColumnKind
from ._library import BUFFER_TOO_SMALL, GIVEN, ColumnBuffers, Position, RawKind, SearchFault
from ._searches import DEPTH, EVERY_ROW, Match, Setup, failed, matching

__all__: list[str] = []

_ASKED = EVERY_ROW.encode()


def places_of(setup: Setup, names: Iterable[str] | None) -> dict[str, int]:
    """The columns that are wanted, and which fields they are. A name that no column has is that of the one that has it in another case."""
    all_names = list(setup.columns)
    if names is None:
        return {name: place for place, name in enumerate(all_names)}
    found = {}
    for name in names:
        alike = [name] if name in setup.columns else [other for other in all_names if other.casefold() == name.casefold()]
        if len(alike) != 1:
            raise NoColumn(f"there is no column {name!r} among {', '.join(map(repr, all_names))}")
        found[alike[0]] = all_names.index(alike[0])
    return found


def kinds_of(setup: Setup) -> list[ColumnKind]:
    """The kinds of the columns that are made of a setup's."""
    count, fault, most = c_size_t(), SearchFault(), max(1, len(setup.columns))
    kinds = (RawKind * most)()
    status = _library.column_kinds(setup.text, len(setup.text), kinds, most, byref(count), byref(fault))
    if status != GIVEN:
        raise failed(status, fault, "", setup)
    return [ColumnKind(kind.code, kind.precision, kind.scale) for kind in kinds[: count.value]]


class Rows(NamedTuple):
    """Columns of as many rows."""

    columns: list[Column]
    row_count: int

    def cut(self, start: int, end: int) -> Rows:
        """The rows from one on and before another, in the same memory."""
        return Rows([one[start:end] for one in self.columns], end - start)


def together(parts: Sequence[Rows]) -> Rows:
    """The rows of all parts, of which there is one at least."""
    return Rows([joined(pieces) for pieces in zip(*(part.columns for part in parts))], sum(part.row_count for part in parts))


class Reader:
    """Reads columns of a file's records. `places` are those that are wanted."""

    def __init__(self, setup: Setup, places: Iterable[int]) -> None:
        self._setup, self._places = setup, list(places)
        kinds = kinds_of(setup)
        self.kinds = [kinds[place] for place in self._places]
        self._wanted = (c_size_t * max(1, len(self._places)))(*self._places)
        # What is written by one call is copied, as long as it is, before the next one writes over it.
        self._rooms: list[Room] = []
        self._rows = self._length = 0

    def none(self) -> Rows:
        """No rows."""
        return Rows([nulls(kind, 0) for kind in self.kinds], 0)

    def read(self, text: bytes) -> Rows:
        """The rows of the records that a text has."""
        rows, fault, setup = c_size_t(), SearchFault(), self._setup.text
        self._make_room(text.count(b"\n") + 1, len(text))
        while True:
            raws = (ColumnBuffers * max(1, len(self._rooms)))(*(room.raw() for room in self._rooms))
            status = _library.search_columns(
                setup, len(setup), _ASKED, len(_ASKED), DEPTH, 0, text, len(text), self._wanted, len(self._places), raws, len(self._rooms), byref(rows), byref(fault)
            )
            if status == GIVEN:
                return Rows([room.copied(rows.value, raw.count) for room, raw in zip(self._rooms, raws)], rows.value)
            if status != BUFFER_TOO_SMALL:
                raise failed(status, fault, EVERY_ROW, self._setup)
            self._make_room(rows.value, max(raw.count for raw in raws))

    def read_each(self, text: bytes, start: int, found: Iterable[Match]) -> Rows:
        """The rows of the records that were found in a text, which begins at this place of the file."""
        return self.read(b"".join([text[one.offset - start : one.offset - start + one.length] for one in found]))

    def _make_room(self, rows: int, length: int) -> None:
        """Makes the buffers as long as so many rows, and strings of so many bytes, take at most."""
        if not self._rooms or rows > self._rows or length > self._length:
            self._rows, self._length = max(rows, self._rows), max(length, self._length)
            self._rooms = [Room(kind, self._rows, self._length) for kind in self.kinds]


def word_of(text: bytes, setup: Setup, column: str) -> bytes:
    """The field of a column in the record with which a text begins."""
    fields = Setup.of(f"{setup.delimiter_byte} 1 0 0\n".encode() + b"".join(b"bytes? %d\n" % place for place in range(len(setup.columns))))
    reader = Reader(fields, [list(setup.columns).index(column)])
    for first in matching(fields, EVERY_ROW, text, Position(0, 1), True):
        return reader.read_each(text, 0, first[:1]).columns[0][0] or b""
    return b""
