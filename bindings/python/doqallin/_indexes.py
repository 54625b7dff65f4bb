# SPDX-License-Identifier: Apache-2.0
# SPDX-FileCopyrightText: Copyright the Vortex contributors; ported to Rattle and changed
"""Indexes of CSV files, made piece by piece, and how they are written."""

from __future__ import annotations

import ctypes
import os
import re
import sys
from collections.abc import Callable, Sequence
from ctypes import byref, c_size_t, sizeof
from typing import Any

from . import _library
from ._errors import BadRecord, TooManyRows
from ._library import BAD_OFFSETS, BUFFER_TOO_SMALL, GIVEN, IndexLengths, IndexZone, RawZone, SearchFault
from ._searches import Setup, _growing, failed

__all__: list[str] = []

Progress = Callable[[int, int], None]

ROWS = 1000
BOUNDS = 24
# How many bytes a decimal of more than 18 digits is stored in, which no bound may cut.
_WIDE = 16
_DECIMAL = re.compile(r"decimal\((\d+),")
# Room for so many zones, and for so many bytes of statistics, at first.
_MOST = 1 << 12
_ROOM = 1 << 18
_NAMES_TRIED = 1000


def sized(setup: Setup, rows: int, bounds: int) -> Setup:
    """The same setup, with so many records in a zone, and so many bytes in a bound; none that cuts a number."""
    wide = any(int(found[1]) > 18 for found in map(_DECIMAL.match, setup.columns.values()) if found)
    lines = setup.text.split(b"\n")
    place = next(place for place, line in enumerate(lines) if not line.startswith(b"null "))
    delimiter, lenient, *_ = lines[place].split(b" ")
    lines[place] = b"%b %b %d %d" % (delimiter, lenient, max(bounds, _WIDE if wide else 0), rows)
    return Setup.of(b"\n".join(lines))


def ends_record(setup: Setup, text: bytes) -> bool:
    """Whether a record may begin behind a text that begins with one."""
    one_field = Setup.of(b"%d 1 0 1\nbytes? field\n" % setup.delimiter_byte)
    return not text or Maker(one_field, 0).add(text, False) == len(text)


def is_zone(setup: Setup, zone: RawZone, statistics: bytes, text: bytes) -> bool:
    """Whether a text is the zone that an index describes."""
    maker = Maker(sized(setup, max(1, zone.records), setup.bound_length), zone.place)
    try:
        maker.add(text, True)
    except BadRecord:
        return False
    return maker.has_zones([zone], [statistics])


class Maker:
    """The zones of a file, of which one piece comes after another."""

    def __init__(self, setup: Setup, start: int) -> None:
        self.setup, self.start, self.end = setup, start, start
        self.nulls = self.longer = 0
        self._zones, self._statistics = bytearray(), bytearray()
        self._most, self._room = _MOST, _ROOM

    def take(self, zones: Sequence[RawZone], statistics: Sequence[bytes]) -> None:
        """Takes zones that an index has, before any other."""
        for zone, known in zip(zones, statistics):
            self._zones += bytes(IndexZone(zone.place, zone.length, zone.records, zone.rows, len(known)))
            self._statistics += known
            self.end = zone.place + zone.length

    def has_zones(self, zones: Sequence[RawZone], statistics: Sequence[bytes]) -> bool:
        """Whether the zones so far are these."""
        other = Maker(self.setup, self.start)
        other.take(zones, statistics)
        return (self._zones, self._statistics) == (other._zones, other._statistics)

    def add(self, text: bytes, is_end: bool) -> int:
        """Takes the zones of a text that stands behind those so far, and returns how many bytes of it they have."""
        lengths, fault = IndexLengths(), SearchFault()
        while True:
            zones, statistics = (IndexZone * self._most)(), (ctypes.c_uint8 * self._room)()
            status = _library.index_records(
                self.setup.text, len(self.setup.text), self.end, text, len(text), is_end, zones, self._most, statistics, self._room, byref(lengths), byref(fault)
            )
            if status != BUFFER_TOO_SMALL:
                break
            self._most, self._room = max(self._most, lengths.zones), max(self._room, lengths.statistics)
        if status == BAD_OFFSETS:
            raise TooManyRows("the file ends behind what 64 bits count")
        if status != GIVEN:
            raise failed(status, fault, "", self.setup)
        self._zones += memoryview(zones).cast("B")[: lengths.zones * sizeof(IndexZone)]
        self._statistics += memoryview(statistics).cast("B")[: lengths.statistics]
        self.nulls += lengths.nulls
        self.longer += lengths.longer
        self.end += lengths.taken
        return lengths.taken

    def index(self, changed: int) -> bytes:
        """The bytes of the index of a file that ends with the zones so far, and was changed last then."""
        count, fault = len(self._zones) // sizeof(IndexZone), SearchFault()
        zones = (IndexZone * max(1, count)).from_buffer_copy(self._zones.ljust(sizeof(IndexZone), b"\0"))
        statistics, setup = bytes(self._statistics), self.setup.text

        def call(buffer: Any, size: int, written: c_size_t) -> int:
            found: int = _library.write_index(
                setup, len(setup), self.end, changed, self.start, zones, count, statistics, len(statistics), buffer, size, byref(written), byref(fault)
            )
            return found

        length = 96 + len(setup) + len(statistics) + 32 * count + 40 * len(self.setup.columns)
        status, buffer, written = _growing(call, ctypes.c_uint8, length)
        if status != GIVEN:
            raise failed(status, fault, "", self.setup)
        return bytes(memoryview(buffer).cast("B")[:written])


def write(name: str, data: bytes) -> None:
    """Writes a file of this name, whole or not at all: a new one beside it, which then takes the name. No link is followed."""
    for number in range(1, _NAMES_TRIED + 1):
        temporary = f"{name}.new{number}"
        try:
            output = os.open(temporary, os.O_WRONLY | os.O_CREAT | os.O_EXCL | getattr(os, "O_CLOEXEC", 0), 0o666)
            break
        except FileExistsError:
            if number == _NAMES_TRIED:
                raise
    try:
        with open(output, "wb") as file:
            file.write(data)
            file.flush()
            os.fsync(file.fileno())
        os.replace(temporary, name)
    except BaseException:
        os.unlink(temporary)
        raise


class _Bar:
    """Tells on a terminal how many bytes were read, each hundredth of them."""

    def __init__(self) -> None:
        self._told = 0

    def __call__(self, done: int, total: int) -> None:
        is_end = done >= total
        if is_end or done - self._told > total // 100:
            self._told = done
            print(f"\r{done} of {total} bytes", end="\n" if is_end else "", file=sys.stderr, flush=True)


def _silent(done: int, total: int) -> None:
    """Tells nothing."""


def telling(progress: Progress | bool | None) -> Progress:
    """What is called with how many bytes were read of how many."""
    if progress is None:
        progress = sys.stderr is not None and sys.stderr.isatty()
    if isinstance(progress, bool):
        if progress:
            return _Bar()
        return _silent
    return progress
