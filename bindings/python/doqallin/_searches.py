# SPDX-License-Identifier: Apache-2.0
# SPDX-FileCopyrightText: Copyright the Vortex contributors; ported to Rattle and changed
"""Searches in the bytes of files: what an index says, and which records match. No file is opened here."""

from __future__ import annotations

import ctypes
import struct
from collections.abc import Callable, Iterator, Sequence
from ctypes import byref, c_size_t, c_uint64
from dataclasses import dataclass
from typing import Any, NamedTuple

from . import _library
from ._errors import BadBytes, BadIndex, BadOffsets, BadRecord, DoqallinError, at
from ._filters import filter_mistake
from ._library import (
    BAD_BYTES,
    BAD_FILTER,
    BAD_OFFSETS,
    BUFFER_TOO_SMALL,
    GIVEN,
    REFUSED,
    ByteRange,
    Found,
    IndexParts,
    PlanLengths,
    Position,
    RawZone,
    SearchFault,
    check,
    encoded,
)

__all__: list[str] = []

HEAD = 16
DEPTH = 32
SKIP, WHOLE, SEARCH = range(3)
NONE_MATCH, ALL_MATCH, UNKNOWN = range(3)
# Each record that is a row matches.
EVERY_ROW = "true"

_OF_INDEX = ("the index is cut", "this is no index", "another version wrote the index", "the index is damaged", "bytes follow the index")
_OF_RECORD = ("a field is of another kind than its column", "it has more or fewer fields than there are columns", "a carriage return is before its end")
# How many records are found by one call, and what is said of each.
_FOUND = 4096
_FIELDS = struct.Struct("=3Q")

Read = Callable[[int, int], bytes]


@dataclass(frozen=True)
class Setup:
    """How the records of a file are read, as the library writes it."""

    text: bytes
    delimiter_byte: int
    bound_length: int
    zone_rows: int
    columns: dict[str, str]

    @classmethod
    def of(cls, text: bytes) -> Setup:
        numbers, *named = [line for line in text.split(b"\n")[:-1] if not line.startswith(b"null ")]
        delimiter, _, bound_length, zone_rows = map(int, numbers.split(b" "))
        kinds = [line.decode().partition(" ")[::2] for line in named]
        return cls(text, delimiter, bound_length, zone_rows, {name: kind for kind, name in kinds})


def failed(status: int, fault: SearchFault, words: str, setup: Setup | None = None) -> DoqallinError:
    """The error that the status of a search says."""
    if status == BAD_BYTES and setup is not None:
        return BadBytes(f"no setup: {setup.text.decode(errors='replace')!r}")
    if status == BAD_BYTES:
        return BadIndex(_OF_INDEX[fault.reason])
    if status == BAD_FILTER:
        return filter_mistake(words, fault.place, fault.reason)
    if status == BAD_OFFSETS:
        return at(BadOffsets(f"zone {fault.place} of the index ends behind what 64 bits count"), fault.place)
    if status == REFUSED:
        return _bad_record(fault, setup)
    check(status)
    return DoqallinError(f"status {status}")


def _bad_record(fault: SearchFault, setup: Setup | None) -> BadRecord:
    error = at(BadRecord(f"the record at byte {fault.place}: {_OF_RECORD[fault.reason]}"), fault.place)
    if fault.reason == 0 and setup is not None:
        error.column = list(setup.columns)[fault.column]
        error.args = (f"the record at byte {fault.place}: column {error.column!r}, {setup.columns[error.column]}, does not take its field",)
    return error


def _growing(call: Callable[[Any, int, c_size_t], int], item: Any, length: int) -> tuple[int, Any, int]:
    """Calls with a buffer that is long enough: the status, the buffer, and how many items were written."""
    count = c_size_t()
    while True:
        buffer = (item * length)()
        status = call(buffer, length, count)
        if status != BUFFER_TOO_SMALL:
            return status, buffer, count.value
        length = count.value


@dataclass(frozen=True)
class Plan:
    """What an index says of each zone for a filter."""

    zones: Sequence[RawZone]
    ranges: Sequence[ByteRange]


class Index:
    """An index, whose bytes are read as they are needed."""

    def __init__(self, read: Read) -> None:
        self._read = read
        length, fault = c_uint64(), SearchFault()
        head = read(0, HEAD)
        status = _library.index_root_length(head, len(head), byref(length), byref(fault))
        if status != GIVEN:
            raise failed(status, fault, "")
        self._root = head + read(HEAD, length.value - HEAD)
        self.parts = IndexParts()

        def call(buffer: Any, size: int, count: c_size_t) -> int:
            found: int = _library.index_root(self._root, len(self._root), buffer, size, byref(count), byref(self.parts), byref(fault))
            return found

        status, buffer, count = _growing(call, ctypes.c_uint8, 1024)
        if status != GIVEN:
            raise failed(status, fault, "")
        self.setup = Setup.of(bytes(buffer[:count]))

    def _blocks(self, words: str) -> bytes:
        """The statistics of the columns that a filter names."""
        text, fault = encoded(words), SearchFault()

        def call(buffer: Any, size: int, count: c_size_t) -> int:
            found: int = _library.search_blocks(self._root, len(self._root), text, len(text), DEPTH, buffer, size, byref(count), byref(fault))
            return found

        status, ranges, count = _growing(call, ByteRange, self.parts.block_count or 1)
        if status != GIVEN:
            raise failed(status, fault, words)
        return b"".join(self._read(part.place, part.length) for part in ranges[:count])

    def statistics(self) -> list[bytes]:
        """The statistics of each zone: for each column a piece behind its length. A plan has tested the bytes."""
        words = " or ".join('"{}" is null'.format(name.replace('"', '""')) for name in self.setup.columns) or EVERY_ROW
        blocks = self._blocks(words)
        found: list[list[bytes]] = [[] for _ in self._planned(blocks, words, False).zones]
        place = 0
        for _ in self.setup.columns:
            for pieces in found:
                end = place + 8 + int.from_bytes(blocks[place : place + 8], "little")
                pieces.append(blocks[place:end])
                place = end
        return [b"".join(pieces) for pieces in found]

    def plan(self, words: str, is_count: bool = False) -> Plan:
        """What to do with each zone, and what to read of the file."""
        return self._planned(self._blocks(words), words, is_count)

    def _planned(self, blocks: bytes, words: str, is_count: bool) -> Plan:
        text, fault = encoded(words), SearchFault()
        most = self.parts.zone_count or 1
        zones, ranges, lengths = (RawZone * most)(), (ByteRange * most)(), PlanLengths()
        status = _library.search_plan(
            self._root, len(self._root), blocks, len(blocks), text, len(text), DEPTH, is_count, zones, most, ranges, most, byref(lengths), byref(fault)
        )
        if status != GIVEN:
            raise failed(status, fault, words)
        return Plan(zones[: lengths.zones], ranges[: lengths.ranges])


def guessed(first: bytes, given: bytes, has_header: bool, is_all: bool) -> tuple[Setup, int]:
    """The setup of a file that begins with these bytes, and the offset of its first record."""
    start, fault = c_uint64(), SearchFault()

    def call(buffer: Any, size: int, count: c_size_t) -> int:
        found: int = _library.guess_setup(given, len(given), first, len(first), has_header, is_all, buffer, size, byref(count), byref(start), byref(fault))
        return found

    status, buffer, count = _growing(call, ctypes.c_uint8, 1024)
    if status == BAD_BYTES:
        raise BadBytes(f"no columns, or no delimiter: {given.decode(errors='replace')!r}")
    if status != GIVEN:
        raise failed(status, fault, "")
    return Setup.of(bytes(buffer[:count])), start.value


class Match(NamedTuple):
    """A record that matches: where it begins in its file, how many bytes it has with its line end, and its number."""

    offset: int
    length: int
    number: int


def matching(setup: Setup, words: str, text: bytes, position: Position, is_end: bool) -> Iterator[list[Match]]:
    """The records of a text that match, some at a time; the position goes on to the first record that was not judged.

    BadRecord comes behind the records that match before that one."""
    asked, first, fault, count = encoded(words), position.place, SearchFault(), c_size_t()
    found, start = (Found * _FOUND)(), ctypes.cast(ctypes.c_char_p(text), ctypes.c_void_p).value or 0
    while True:
        before, judged = position.place, position.place - first
        status = _library.search_records(
            setup.text, len(setup.text), asked, len(asked), DEPTH, ctypes.c_char_p(start + judged), len(text) - judged, is_end, byref(position), found, _FOUND, byref(count), byref(fault)
        )
        if status in (GIVEN, REFUSED) and count.value:
            yield list(map(Match._make, _FIELDS.iter_unpack(memoryview(found).cast("B")[: count.value * _FIELDS.size])))
        if status != GIVEN:
            raise failed(status, fault, words, setup)
        if count.value < _FOUND or position.place == before:
            return
