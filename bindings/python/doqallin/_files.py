# SPDX-License-Identifier: Apache-2.0
# SPDX-FileCopyrightText: Copyright the Vortex contributors; ported to Rattle and changed
"""CSV files as tables: searched by a filter, by their indexes where they have one."""

from __future__ import annotations

import glob
import io
import os
from collections.abc import Iterable, Iterator, Mapping
from itertools import chain
from typing import Any, NamedTuple

from ._errors import BadIndex, BadRecord, KindsDiffer, NoColumn, StaleIndex
from ._found import Reader, Rows, places_of, together, word_of
from ._indexes import BOUNDS, ROWS, Maker, Progress, ends_record, is_zone, sized, telling, write
from ._library import Position, RawZone
from ._searches import ALL_MATCH, EVERY_ROW, SKIP, UNKNOWN, WHOLE, Index, Match, guessed, matching
from ._tables import Table, table_of
from ._types import DType

__all__ = ["Files", "FileZone", "index", "open"]

# So many bytes are read at once, and so many rows are in a batch.
_PIECE = 4 << 20
_ROWS = 1 << 16
# Columns are guessed from so many bytes at the beginning.
_BEGINNING = 1 << 20
_WAYS = ("skip", "whole", "search")


class FileZone(NamedTuple):
    """A zone of a file: its name, where it begins, how many bytes, records and rows it has, and what a search does with it: `skip`,
    `whole` or `search`."""

    file: str
    offset: int
    length: int
    records: int
    rows: int
    way: str


class _Source:
    """A file: bytes that are read from any offset."""

    def __init__(self, file: Any, index: Any) -> None:
        self._file, self._path = (None, os.fspath(file)) if isinstance(file, (str, os.PathLike)) else (file, None)
        self.name = self._path or str(getattr(file, "name", None) or getattr(file, "path", None) or "a file")
        self._index = index
        self.fetched = 0

    def _opened(self) -> Any:
        if self._file is None:
            self._file = io.open(str(self._path), "rb", buffering=0)
        return self._file

    @property
    def path(self) -> str | None:
        """Where the file is, if it is one of the system's."""
        return None if self._path is None else os.fsdecode(self._path)

    def close(self) -> None:
        """Closes what was opened here."""
        if self._path is not None and self._file is not None:
            self._file.close()
            self._file = None

    def read(self, offset: int, length: int) -> bytes:
        file = self._opened()
        file.seek(offset)
        pieces: list[bytes] = []
        while length > 0:
            piece = file.read(length)
            if not piece:
                break
            pieces.append(piece)
            length -= len(piece)
            self.fetched += len(piece)
        return b"".join(pieces) if len(pieces) != 1 else pieces[0]

    def length(self) -> int:
        return int(self._opened().seek(0, os.SEEK_END))

    def changed(self) -> int | None:
        """When the file was changed last, in nanoseconds since 1970, if it is one of the system's."""
        return None if self._path is None else os.stat(self._path).st_mtime_ns

    def index(self) -> _Source | None:
        """The file of its index, if it has one."""
        if self._index is False or self._index is None:
            return None
        if self._index is not True:
            return _Source(self._index, None)
        if self._path is None or not os.path.lexists(f"{self._path}.zones"):
            return None
        if os.path.islink(f"{self._path}.zones"):
            raise BadIndex(f"{self.name}.zones is a link, and none is followed to an index: remove it, and make the index again, or open the file with index=False")
        return _Source(f"{self._path}.zones", None)


class _File:
    """A file, how its records are read, and its index if it has one."""

    def __init__(self, source: _Source, given: bytes, has_header: bool, has_options: bool, may_have_grown: bool = False) -> None:
        self.source = source
        self.has_header = has_header
        self.index: Index | None = None
        self.may_have_grown = may_have_grown
        # Where what is new since the file was indexed begins.
        self._new: Position | None = None
        found = None if has_options else source.index()
        self._index_source = found
        if found is not None:
            self.index = Index(found.read)
            self.setup, self.start = self.index.setup, self.index.parts.start
            self._length = source.length()
            try:
                self._compare(self.index)
            except StaleIndex:
                if not may_have_grown:
                    raise
                self._new = self._grown(self.index)
        else:
            first = source.read(0, _BEGINNING)
            self.setup, self.start = guessed(first, given, has_header, len(first) < _BEGINNING)

    def _compare(self, index: Index) -> None:
        changed = self.source.changed()
        if index.parts.file_length != self.source.length() or changed not in (None, index.parts.changed):
            raise StaleIndex(f"{self.source.name} is not as it was when its index was made: make the index again, or open the file with index=False")

    def _grown(self, index: Index) -> Position:
        """Where what is new begins in a file that was only appended to, by its last zone."""
        zones, statistics = index.plan(EVERY_ROW).zones, index.statistics()
        end = zones[-1].place + zones[-1].length if zones else self.start
        first = zones[-1].place if zones else 0
        text = self.source.read(first, end - first)
        is_same = len(text) == end - first and (not zones or is_zone(self.setup, zones[-1], statistics[-1], text))
        if not is_same or not (self._length == end or ends_record(self.setup, text)):
            raise StaleIndex(f"{self.source.name} was changed, and not only appended to, since its index was made: make the index again")
        return Position(end, sum(zone.records for zone in zones) + 1)

    def is_as_indexed(self) -> bool:
        """Whether the file is still the one that its index is of, or has only grown, where it may have done so."""
        if self.index is not None and self.may_have_grown:
            return self.source.length() >= self._length
        try:
            if self.index is not None:
                self._compare(self.index)
        except StaleIndex:
            return False
        return True

    @property
    def index_fetched(self) -> int:
        """How many bytes of the index were read so far."""
        return 0 if self._index_source is None else self._index_source.fetched

    def close(self) -> None:
        self.source.close()
        if self._index_source is not None:
            self._index_source.close()

    def zones(self, words: str) -> list[FileZone]:
        if self.index is None:
            length = self.source.length() - self.start
            return [FileZone(self.source.name, self.start, length, -1, -1, "search")]
        found = [FileZone(self.source.name, zone.place, zone.length, zone.records, zone.rows, _WAYS[zone.way]) for zone in self.index.plan(words).zones]
        if self._new is not None:
            found.append(FileZone(self.source.name, self._new.place, self._length - self._new.place, -1, -1, "search"))
        return found

    def matches(self, words: str, is_count: bool = False) -> Iterator[tuple[bytes, int, list[Match]]]:
        """Pieces of the file with the records in them that match: bytes, the offset at which they begin, and the records."""
        if self.index is not None:
            yield from self.matches_in(self.index.plan(words, is_count).zones, words, is_count)
        yield from self.matches_beyond(words)

    def matches_in(self, zones: Iterable[RawZone], words: str, is_count: bool = False) -> Iterator[tuple[bytes, int, list[Match]]]:
        """The same of the zones of a plan."""
        for text, first, asked in self._texts_of(zones, words, is_count):
            for found in matching(self.setup, asked, text, Position(first.place, first.number + 1), True):
                yield text, first.place, found

    def _texts_of(self, zones: Iterable[RawZone], words: str, is_count: bool = False) -> Iterator[tuple[bytes, RawZone, str]]:
        """The texts of a plan's zones that are to be read, the first zone of each, and what is sought in it."""
        for run in _runs(zones, is_count):
            first, last = run[0], run[-1]
            text = self.source.read(first.place, last.place + last.length - first.place)
            yield text, first, EVERY_ROW if first.way == WHOLE and not is_count else words

    def rows(self, words: str, reader: Reader) -> Iterator[Rows]:
        """The columns of the rows that match, some at a time. A zone whose records all match is not searched."""
        zones = [] if self.index is None else self.index.plan(words).zones
        for text, first, asked in self._texts_of(zones, words):
            if asked == EVERY_ROW:
                yield reader.read(text)
                continue
            for found in matching(self.setup, asked, text, Position(first.place, first.number + 1), True):
                yield reader.read_each(text, first.place, found)
        for text, start, found in self.matches_beyond(words):
            yield reader.read_each(text, start, found)

    def matches_beyond(self, words: str) -> Iterator[tuple[bytes, int, list[Match]]]:
        """The same of what no index describes: all of a file, or what is new in one that has grown."""
        if self.index is None:
            yield from self._of_whole_file(words, Position(self.start, 1))
        elif self._new is not None:
            yield from self._of_whole_file(words, Position(self._new.place, self._new.number))

    def _of_whole_file(self, words: str, position: Position) -> Iterator[tuple[bytes, int, list[Match]]]:
        text, read = b"", position.place
        is_end = False
        while not is_end:
            piece = self.source.read(read, max(_PIECE, len(text)))
            is_end = not piece
            read += len(piece)
            start, text = position.place, text + piece
            for found in matching(self.setup, words, text, position, is_end):
                yield text, start, found
            text = text[position.place - start :]

    def write_index(self, rows: int, bounds: int, tell: Progress) -> Maker:
        """Writes the index of the file beside it. The file is read once, piece by piece."""
        name = self.source.path
        if name is None:
            raise TypeError(f"{self.source.name} is a file object: an index is written beside a file that has a path")
        if self.has_header and self.start == 0:
            raise NoColumn(f"{name} is empty, and has no header")
        maker = Maker(sized(self.setup, rows, bounds), self.start)
        if self.index is not None and self.may_have_grown:
            maker = Maker(self.setup, self.start)
            zones, statistics = list(self.index.plan(EVERY_ROW).zones), self.index.statistics()
            # The last zone goes on where it is not full.
            count = len(zones) - (len(zones) > 0 and zones[-1].records < self.setup.zone_rows)
            maker.take(zones[:count], statistics[:count])
        with io.open(name, "rb", buffering=0) as file:
            before = _stamp(file)
            file.seek(maker.end)
            self._add_zones(maker, file, before[0], tell)
            if _stamp(file) != before or maker.end != before[0]:
                raise StaleIndex(f"{name} changed while it was read")
        write(f"{name}.zones", maker.index(before[1]))
        return maker

    def _add_zones(self, maker: Maker, file: Any, length: int, tell: Progress) -> None:
        text, read, is_end = b"", maker.end, False
        while not is_end:
            piece = file.read(max(_PIECE, len(text)))
            is_end = not piece
            read += len(piece)
            text += piece
            try:
                taken = maker.add(text, is_end)
            except BadRecord as error:
                raise self.located(error, text[(error.place or 0) - maker.end :]) from None
            text = text[taken:]
            if piece or not length:
                tell(read, length)

    def located(self, error: BadRecord, text: bytes) -> BadRecord:
        """The error, with the line of the record, which begins this text, and the word that its column does not take."""
        error.line = 1 + self._feeds(error.place or 0)
        place = f"{self.source.name}:{error.line}"
        if error.column is None:
            error.args = (f"{place}: {str(error).partition(': ')[2]}",)
        else:
            error.word = word_of(text, self.setup, error.column)
            error.args = (f"{place}: column {error.column!r}, {self.setup.columns[error.column]}, does not take {error.word[:80]!r}",)
        return error

    def _feeds(self, end: int) -> int:
        """How many line feeds stand before an offset."""
        return sum(self.source.read(place, min(_PIECE, end - place)).count(b"\n") for place in range(0, end, _PIECE))

    def count(self, words: str) -> int:
        return self.count_in([] if self.index is None else self.index.plan(words, True).zones, words)

    def count_in(self, zones: Iterable[RawZone], words: str) -> int:
        """How many rows match in the zones of a plan to count, and in what no index describes."""
        known = sum(zone.rows for zone in zones if zone.decision == ALL_MATCH)
        read = chain(self.matches_in(zones, words, True), self.matches_beyond(words))
        return known + sum(len(found) for _, _, found in read)


def _stamp(file: Any) -> tuple[int, int]:
    """How long an open file is, and when it was changed last."""
    found = os.fstat(file.fileno())
    return found.st_size, max(0, found.st_mtime_ns)


def _runs(zones: Iterable[RawZone], is_count: bool) -> Iterator[list[RawZone]]:
    """Zones next to each other that are read alike, as many as make a piece."""
    run: list[RawZone] = []
    for zone in zones:
        is_read = zone.decision == UNKNOWN if is_count else zone.way != SKIP
        if run and not (is_read and zone.way == run[0].way and zone.place == run[-1].place + run[-1].length and zone.place + zone.length - run[0].place <= _PIECE):
            yield run
            run = []
        if is_read:
            run.append(zone)
    if run:
        yield run


class Files:
    """CSV files as one table. `doqallin.open` makes it.

    What is asked is a filter, as SQL's WHERE has it. A file with an index, which `index` and the program `zone_map index` make, is
    read only where rows may match; another one is read whole. Nothing is kept in memory but the rows that match, and of `batches`
    one batch.
    """

    nulled = 0
    """How many words became nulls when `index` made these files' indexes, since their columns do not take them (`lenient`)."""
    longer = 0
    """How many records had more fields than there are columns then."""

    def __init__(self, sources: list[_Source], given: bytes, has_header: bool, has_options: bool, may_have_grown: bool = False) -> None:
        self._files: list[_File] = []
        try:
            for source in sources:
                self._files.append(_File(source, given, has_header, has_options, may_have_grown))
        except BaseException:
            self.close()
            raise

    def close(self) -> None:
        """Closes the files that were opened by their names. A search opens them again."""
        for file in self._files:
            file.close()

    def __enter__(self) -> Files:
        return self

    def __exit__(self, *error: object) -> None:
        self.close()

    @property
    def names(self) -> list[str]:
        """The files' names, in their order."""
        return [file.source.name for file in self._files]

    @property
    def columns(self) -> dict[str, str]:
        """The columns' names and kinds."""
        return dict(self._files[0].setup.columns)

    @property
    def zones(self) -> list[FileZone]:
        """The zones of all files. A file without an index is one zone, whose records were not counted."""
        return self.plan()

    @property
    def fetched(self) -> int:
        """How many bytes of the files, without their indexes, were read so far."""
        return sum(file.source.fetched for file in self._files)

    def plan(self, where: str = EVERY_ROW) -> list[FileZone]:
        """The zones of all files, with what a search by this filter does with each."""
        return [zone for file in self._files for zone in file.zones(where)]

    def records(self, where: str = EVERY_ROW) -> Iterator[bytes]:
        """The records that match, byte for byte as they are in the files, with their line ends."""
        for file in self._files:
            for text, start, found in file.matches(where):
                for one in found:
                    yield text[one.offset - start : one.offset - start + one.length]

    def _rows(self, where: str, wanted: list[str] | None) -> Iterator[tuple[list[str], Rows]]:
        """The names of the columns, and the rows that match, some at a time; first of all none."""
        first: dict[str, str] | None = None
        for file in self._files:
            places = places_of(file.setup, wanted)
            kinds = {name: file.setup.columns[name] for name in places}
            reader = Reader(file.setup, places.values())
            if first is None:
                first = kinds
                yield list(kinds), reader.none()
            if kinds != first:
                raise KindsDiffer(f"{file.source.name} has the columns {kinds}, and {self._files[0].source.name} {first}: open them with columns=")
            for rows in file.rows(where, reader):
                yield list(kinds), rows

    def batches(self, where: str = EVERY_ROW, columns: Iterable[str] | None = None, rows: int = _ROWS) -> Iterator[Table]:
        """The rows that match, so many in each table; the last one may have fewer. No table is empty.

        Nothing is kept but the rows of one table, and one piece of a file with the rows in it. A record that is refused is told
        behind the tables of the rows before it.
        """
        if rows < 1:
            raise ValueError(f"a table has one row at least, not {rows}")
        names: list[str] = []
        parts: list[Rows] = []
        count = 0
        try:
            for names, found in self._rows(where, _listed(columns)):
                while count + found.row_count >= rows:
                    taken = rows - count
                    yield _table(names, [*parts, found.cut(0, taken)])
                    found, parts, count = found.cut(taken, found.row_count), [], 0
                if found.row_count:
                    parts.append(found)
                    count += found.row_count
        except BadRecord:
            if parts:
                yield _table(names, parts)
            raise
        if parts:
            yield _table(names, parts)

    def __iter__(self) -> Iterator[Table]:
        return self.batches()

    def find(self, where: str = EVERY_ROW, columns: Iterable[str] | None = None) -> Table:
        """The rows that match, as a table of these columns, or of all."""
        found = list(self._rows(where, _listed(columns)))
        return _table(found[0][0], [rows for _, rows in found if rows.row_count] or [found[0][1]])

    def head(self, rows: int = 5, where: str = EVERY_ROW, columns: Iterable[str] | None = None) -> Table:
        """The first rows that match."""
        wanted = _listed(columns)
        if rows > 0:
            for batch in self.batches(where, wanted, rows):
                return batch
        for names, none in self._rows(where, wanted):
            return _table(names, [none])
        raise NoColumn("there is no file")

    def count(self, where: str = EVERY_ROW) -> int:
        """How many rows match. A zone is not read where its statistics say that all do, or none."""
        return sum(file.count(where) for file in self._files)

    def index(self, progress: Progress | bool | None = None, *, rows: int = ROWS, bounds: int = BOUNDS) -> Files:
        """Makes an index of each file, `trips.csv.zones` of `trips.csv`, and returns the files opened by these.

        The indexes are those that `zone_map index` makes: they have bounds of the columns' values for each zone of so many `rows`;
        bounds of strings and bytes have at most `bounds` bytes. A file is read once, piece by piece. Its index is written whole or
        not at all, beside it, and no link with its name is followed.

        The indexes of files that were opened with `grown` go on: only what is new is read, and the last zone if it was not full. `rows`
        and `bounds` stay what they were.

        `progress(done, total)` is called with how many bytes were read. Without it that is told on standard error, if this is a
        terminal; with False it is not.

        Raises BadRecord with the line of the first record that is no row, and StaleIndex if the file changes meanwhile. Then an
        index that was there stays.
        """
        if rows < 1:
            raise ValueError(f"a zone has one record at least, not {rows}")
        if bounds < 0:
            raise ValueError(f"a bound has no {bounds} bytes")
        made = [file.write_index(rows, bounds, telling(progress)) for file in self._files]
        self.close()
        files = Files([_Source(name, True) for name in self.names], b"", False, False)
        files.nulled, files.longer = sum(maker.nulls for maker in made), sum(maker.longer for maker in made)
        return files

    def __repr__(self) -> str:
        return f"<Files {', '.join(self.names[:3])}{', ..' if len(self.names) > 3 else ''}: {self.columns}>"


def _listed(columns: Iterable[str] | None) -> list[str] | None:
    """The names of columns, which are asked for more than once."""
    if isinstance(columns, str):
        raise TypeError("a list of names is wanted, not a str")
    return None if columns is None else list(columns)


def _table(names: list[str], parts: list[Rows]) -> Table:
    columns, count = together(parts)
    return table_of(names, columns.__getitem__, count)


def _paths(source: Any) -> list[Any]:
    """The files that a caller names: one, the files of a folder that end in .csv or .tsv, those of a pattern, or each of a list."""
    if isinstance(source, (list, tuple)):
        return [path for part in source for path in _paths(part)]
    if not isinstance(source, (str, os.PathLike)):
        return [source]
    path = os.fspath(source)
    if os.path.isdir(path):
        return sorted(os.path.join(path, name) for name in os.listdir(path) if name.endswith((".csv", ".tsv")))
    if not os.path.exists(path) and glob.has_magic(path):
        return sorted(name for name in glob.glob(path, recursive=True) if not name.endswith(".zones"))
    return [path]


def _setup_text(columns: Mapping[str, str | DType] | None, delimiter: str, nulls: Iterable[str], lenient: bool) -> bytes:
    lines = [f"null {word}" for word in nulls]
    if delimiter != "none" and (len(delimiter) != 1 or not delimiter.isascii()):
        raise ValueError(f"a delimiter is one byte, or none: {delimiter!r}")
    lines.append(f"{255 if delimiter == 'none' else ord(delimiter)} {int(lenient)} 0 0")
    lines += [f"{str(kind).replace(' ', '')} {name}" for name, kind in (columns or {}).items()]
    return "".join(f"{line}\n" for line in lines).encode()


def open(
    source: Any,
    *,
    columns: Mapping[str, str | DType] | None = None,
    header: bool = False,
    delimiter: str = ",",
    nulls: Iterable[str] = (),
    lenient: bool = False,
    index: Any = True,
    grown: bool = False,
) -> Files:
    """CSV files as a table that is searched: a path, a pattern of paths, a folder, a list of these, or a file object that has `seek`
    and `read`, as those of fsspec.

    A file `trips.csv` is searched by its index `trips.csv.zones` if that is there: `index` makes it, or `zone_map index trips.csv`,
    and their options say how the records are read. `index=False` passes it over; of a file object the index is another one, given as
    `index`. Without an index the file is read whole, and the options are those of `zone_map`: `header`, `delimiter` (one byte, or
    `none`), `nulls`, `lenient`, and `columns` with a kind for each name; the others are guessed from the first thousand records.
    Any of these options passes the index over.

    With `grown` a file may have been appended to since its index was made. What is new is searched too, and `Files.index` reads only
    that. The last zone is compared with the index; a change before it is not seen.

    Raises StaleIndex if a file changed since its index was made, BadIndex for a damaged one, BadFilter for a mistake in a filter,
    and BadRecord with the first record that is no row of the columns.

    >>> import io
    >>> trips = open(io.BytesIO(b"id,city,fare\\n1,Oslo,9.5\\n2,Bergen,12.25\\n3,Oslo,30\\n"), header=True)
    >>> trips.columns
    {'id': 'i64?', 'city': 'utf8?', 'fare': 'decimal(18,2)?'}
    >>> trips.find("fare >= 10.5 and city = 'Oslo'", columns=["id", "fare"]).to_pydict()
    {'id': [3], 'fare': [Decimal('30.00')]}
    >>> trips.count("city like '%s%'")
    2
    """
    words = tuple(nulls)
    has_options = columns is not None or header or delimiter != "," or bool(words) or lenient
    sources = [_Source(path, index) for path in _paths(source)]
    if not sources:
        raise NoColumn(f"there is no file {source!r}")
    return Files(sources, _setup_text(columns, delimiter, words, lenient), header, has_options, grown)


def index(
    source: Any,
    *,
    columns: Mapping[str, str | DType] | None = None,
    header: bool = False,
    delimiter: str = ",",
    nulls: Iterable[str] = (),
    lenient: bool = False,
    rows: int = ROWS,
    bounds: int = BOUNDS,
    progress: Progress | bool | None = None,
) -> Files:
    """Makes an index of each CSV file, as `Files.index` does, and returns the files opened by these. What is not said of the columns
    is guessed, also if there is an index.

    >>> import io, os, tempfile
    >>> with tempfile.TemporaryDirectory() as folder:
    ...     name = os.path.join(folder, "trips.csv")
    ...     with io.open(name, "wb") as file:
    ...         _ = file.write(b"id,city\\n1,Oslo\\n2,Bergen\\n")
    ...     trips = index(name, header=True, progress=False)
    ...     trips.find("city like 'O%'").to_pydict(), [zone.way for zone in trips.plan("id > 2")]
    ({'id': [1], 'city': ['Oslo']}, ['skip'])
    """
    with open(source, columns=columns, header=header, delimiter=delimiter, nulls=nulls, lenient=lenient, index=False) as files:
        return files.index(progress, rows=rows, bounds=bounds)
