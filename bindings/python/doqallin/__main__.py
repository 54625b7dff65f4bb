# SPDX-License-Identifier: Apache-2.0
# SPDX-FileCopyrightText: Copyright the Vortex contributors; ported to Rattle and changed
"""`python -m doqallin find FILE.. FILTER`, `count`, `index FILE..` and `show FILE`, as the program zone_map has them."""

from __future__ import annotations

import argparse
import io
import os
import sys
from collections.abc import Callable, Iterable, Sequence
from itertools import chain
from typing import Any

from ._command_faults import Fault, bad_filter, bad_record, fault_of, listed, no_index, quoted
from ._errors import BadFilter, BadRecord, DoqallinError, StaleIndex
from ._files import _BEGINNING, _File, _paths, _Source, open
from ._searches import SKIP, UNKNOWN, WHOLE, Index, Match

_SEARCH = "{0} [OPTIONS] FILE.. FILTER\n       {0} [OPTIONS] --where FILTER FILE.."
_MISSING = "a search wants FILE .. FILTER, or --where FILTER FILE .."
_STATUS = "The status is 0 if a row was found, 1 if none was, and 2 after an error."
_INPUT = "(standard input)"
_FAILED = 2


def _arguments(command: str, about: str, usage: str) -> argparse.ArgumentParser:
    program = f"python -m doqallin {command}"
    return argparse.ArgumentParser(program, usage=usage.format(program), description=about, epilog=_STATUS, allow_abbrev=False)


def _add_reading(parser: argparse.ArgumentParser) -> None:
    """Adds the words that say how records are read."""
    parser.add_argument("--columns", help="the columns: 'id i64, city utf8?, key binary'; ? takes nulls. Guessed if not given")
    parser.add_argument("--delimiter", metavar="BYTE", help="the byte between two fields, tab, or none for lines of one field; a comma if not given")
    parser.add_argument("--header", action="store_true", help="the first record has the names of the columns, and is no row")
    parser.add_argument("--null", action="append", default=[], metavar="WORD", help="a word that is read as a null; may be given again")
    parser.add_argument("--lenient", action="store_true", help="take a field that its column does not take, or that is missing, as a null")


def _search_parser(command: str, about: str) -> argparse.ArgumentParser:
    parser = _arguments(command, about, _SEARCH)
    parser.add_argument("words", nargs="*", metavar="FILE", help="files, patterns of them, folders, and - for standard input; the last word is the filter")
    parser.add_argument("-e", "--where", metavar="FILTER", help="which rows match; then each word is a file")
    parser.add_argument("--tell", action="store_true", help="report on standard error what became of the zones, and how many bytes were read")
    parser.add_argument("--grown", action="store_true", help="search a file that was only appended to since it was indexed: what is new, too")
    parser.add_argument("--whole", action="store_true", help="search the whole file without its index, as the next five options do")
    _add_reading(parser)
    name: dict[str, Any] = {"dest": "has_name", "default": None}
    parser.add_argument("-H", "--with-filename", action="store_true", **name, help="write the name of its file before each row and each count")
    parser.add_argument("--no-filename", action="store_false", **name, help="write no names of files")
    return parser


def _find_parser() -> argparse.ArgumentParser:
    parser = _search_parser("find", "Writes the rows that match, as they are in the file.")
    parser.add_argument("--numbers", action="store_true", help="write the number of its record and a colon before each row")
    return parser


def _index_parser() -> argparse.ArgumentParser:
    parser = _arguments("index", "Writes FILE.zones, the index of a file, for each file.", "{0} [OPTIONS] FILE..")
    parser.add_argument("words", nargs="+", metavar="FILE", help="files, patterns of them, or folders")
    _add_reading(parser)
    parser.add_argument("--rows", type=int, default=1000, metavar="N", help="how many records a zone has; 1000 if not given")
    parser.add_argument("--bytes", type=int, default=24, metavar="N", help="how many bytes a bound of strings or bytes has at most; 24 if not given")
    parser.add_argument("--append", action="store_true", help="extend the index of a file that was only appended to; --rows and --bytes stay what they were")
    return parser


def _show_parser() -> argparse.ArgumentParser:
    parser = _arguments("show", "Writes the zones of a file, without the bounds of its columns.", "{0} FILE")
    parser.add_argument("file", metavar="FILE")
    return parser


# ---- how files are read


def _is_open(text: str) -> bool:
    """Whether a text ends inside of quotes, or of parentheses."""
    outside = "".join(text.split('"')[::2])
    return text.count('"') % 2 == 1 or outside.count("(") > outside.count(")")


def _column(text: str) -> tuple[str, str] | None:
    """The name and the kind that a text is."""
    inner = text.removesuffix("?")
    name = inner.rpartition("(")[0].rpartition(" ")[0] if inner.endswith(")") else text.rpartition(" ")[0]
    kind, name = text[len(name) :].replace(" ", ""), name.strip()
    if name.startswith('"'):
        name = name[1:-1].replace('""', '"') if len(name) > 1 and name.endswith('"') else ""
    return (name, kind) if name and kind and "\n" not in name else None


def _columns(text: str) -> dict[str, str]:
    """The columns that a text lists, as `id i64, "first name" utf8?`."""
    columns: dict[str, str] = {}
    part = ""
    for piece in text.split(","):
        part += piece
        if _is_open(part):
            part += ","
            continue
        found, part = _column(part.strip()), part.strip()
        if found is None:
            raise Fault(f"--columns: {quoted(part)} is no column: a name and a kind, as 'city utf8?' or 'fare decimal(10,2)'")
        if found[0] in columns:
            raise Fault(f"--columns: two columns have the name {quoted(found[0])}")
        columns[found[0]], part = found[1], ""
    if part:
        raise Fault(f"--columns: {quoted(part)} is no column: a name and a kind, as 'city utf8?' or 'fare decimal(10,2)'")
    return columns


def _reading(asked: argparse.Namespace) -> dict[str, Any]:
    """The options of `open` that say how records are read."""
    delimiter = "\t" if asked.delimiter == "tab" else "," if asked.delimiter is None else asked.delimiter
    if delimiter != "none" and (len(delimiter) != 1 or not delimiter.isascii() or delimiter in '"\r\n'):
        raise Fault("--delimiter: one byte, and no quote, line feed or carriage return; or tab, or none")
    if any("\n" in word for word in asked.null):
        raise Fault("--null: a word of one line")
    columns = None if asked.columns is None else _columns(asked.columns)
    return {"columns": columns, "header": asked.header, "delimiter": delimiter, "nulls": asked.null, "lenient": asked.lenient}


def _is_said(asked: argparse.Namespace) -> bool:
    """Whether something is said of how records are read."""
    return bool(asked.columns is not None or asked.delimiter is not None or asked.header or asked.null or asked.lenient)


def _named(words: Sequence[str]) -> list[str]:
    """The files that words name, but for the indexes of others of them."""
    names = [name for word in words for name in (_paths(word) or [word])]
    return [name for name in names if not (name.endswith(".zones") and name[: -len(".zones")] in names)]


# ---- what is told, and what is written


def _tell(text: str) -> None:
    print(text, file=sys.stderr)


def _write(data: bytes) -> None:
    try:
        sys.stdout.buffer.write(data)
    except OSError:
        raise Fault("write failed") from None


def _each(names: Sequence[str], answer: Callable[[str], None]) -> bool:
    """Answers each file. What is wrong with one of several is told, and the others are answered. Returns whether something was wrong."""
    if len(names) == 1:
        answer(names[0])
        return False
    has_failed = False
    for name in names:
        try:
            answer(name)
        except Fault as fault:
            if fault.file is None:
                raise
            _tell(fault.named())
            has_failed = True
    return has_failed


# ---- searches


class _Search:
    """What is sought in files, and what was found so far."""

    def __init__(self, asked: argparse.Namespace, filter: str, names: Sequence[str]) -> None:
        self.asked, self.filter, self.names = asked, filter, names
        self.reading = _reading(asked)
        self.is_said = _is_said(asked)
        self.found = self.without_index = 0

    @property
    def has_name(self) -> bool:
        """Whether the name of its file stands before each row and each count."""
        return bool(len(self.names) > 1 if self.asked.has_name is None else self.asked.has_name)

    def note(self, name: str) -> str:
        """What stands before a note on standard error."""
        return f"{name}: " if len(self.names) > 1 or self.has_name else ""

    def answer(self, word: str) -> None:
        """Writes what is asked of one file."""
        name = _INPUT if word == "-" else word
        is_whole = self.asked.whole or self.is_said
        try:
            with open(_input() if word == "-" else word, **self.reading, index=not is_whole, grown=self.asked.grown) as files:
                (file,) = files._files
                lacks_index = word != "-" and not is_whole and file.index is None
                if lacks_index and len(self.names) == 1:
                    _tell(f"{name}: searched whole, since there is no index; `python -m doqallin index` makes one")
                rows = self._rows(name, file)
        except (DoqallinError, OSError) as error:
            raise fault_of(error, name) from None
        self.found += rows
        self.without_index += lacks_index
        if self.asked.command == "count":
            _write(self._front(name) + b"%d\n" % rows)

    def _front(self, name: str) -> bytes:
        return name.encode(errors="surrogateescape") + b":" if self.has_name else b""

    def _rows(self, name: str, file: _File) -> int:
        """How many rows match. They are written if that is asked."""
        try:
            return self._searched(name, file)
        except BadRecord as error:
            text = file.source.read(error.place or 0, _BEGINNING)
            raise bad_record(file.located(error, text), name, file.setup, name == _INPUT) from None
        except BadFilter as error:
            fault = bad_filter(error, name, self.filter, file.setup.columns)
        if file.index is not None or self.is_said:
            raise fault
        # The filter may be one of whole lines.
        try:
            return self._searched(name, _File(file.source, b"255 0 0 0\nutf8 line\n", False, True), is_guessed=False)
        except BadFilter:
            raise fault from None

    def _searched(self, name: str, file: _File, is_guessed: bool = True) -> int:
        is_count = self.asked.command == "count"
        if file.index is None:
            is_told = self.asked.tell and is_guessed and set(file.setup.columns) != set(self.reading["columns"] or ())
            try:
                rows = file.count(self.filter) if is_count else self._write_rows(name, file, file.matches(self.filter))
            except BadFilter:
                is_told = False
                raise
            finally:
                if is_told:
                    _tell(f"{self.note(name)}columns {listed(file.setup.columns)}")
            if self.asked.tell:
                _tell(f"{self.note(name)}no index, bytes read {file.source.fetched}")
            return rows
        zones = file.index.plan(self.filter, is_count).zones
        matches = chain(file.matches_in(zones, self.filter), file.matches_beyond(self.filter))
        rows = file.count_in(zones, self.filter) if is_count else self._write_rows(name, file, matches)
        if self.asked.tell:
            skipped, copied = (sum(zone.way == way for zone in zones) for way in (SKIP, WHOLE))
            found = f"skipped {skipped}, copied {copied}, searched {len(zones) - skipped - copied}"
            if is_count:
                found = f"searched {sum(zone.decision == UNKNOWN for zone in zones)}"
            _tell(f"{self.note(name)}zones {len(zones)}, {found}, bytes read {file.source.fetched}, index bytes {file.index_fetched}")
        if not file.is_as_indexed():
            raise Fault(f"{name}: the file changed while it was read", name, is_named=True)
        return rows

    def _write_rows(self, name: str, file: _File, matches: Iterable[tuple[bytes, int, list[Match]]]) -> int:
        front, rows = self._front(name), 0
        is_line, skipped = bool(front) or len(self.names) > 1, 1 if file.start else 0
        for text, start, found in matches:
            for one in found:
                record = text[one.offset - start : one.offset - start + one.length]
                end = b"\n" if is_line and not record.endswith(b"\n") else b""
                number = b"%d:" % (one.number + skipped) if self.asked.numbers else b""
                _write(front + number + record + end)
            rows += len(found)
        return rows


def _input() -> Any:
    """Standard input, all of it in memory."""
    return io.BytesIO(sys.stdin.buffer.read())


def _search(asked: argparse.Namespace, parser: argparse.ArgumentParser) -> int:
    words = list(asked.words)
    filter = asked.where if asked.where is not None else words.pop() if words else None
    if filter is None or not words:
        parser.error(_MISSING)
    search = _Search(asked, filter, _named(words))
    has_failed = _each(search.names, search.answer)
    if len(search.names) > 1 and search.without_index:
        _tell(f"files searched whole, since they have no index: {search.without_index}; `python -m doqallin index` makes indexes")
    return _FAILED if has_failed else 0 if search.found else 1


# ---- indexes


def _make_index(asked: argparse.Namespace, reading: dict[str, Any], note: str, name: str) -> None:
    if name == "-":
        raise Fault("an index is of a file, and not of standard input", name)
    try:
        if asked.append and os.path.exists(name) and _Source(name, True).index() is None:
            raise no_index(name)
        with open(name, **reading, index=asked.append, grown=asked.append) as files:
            (file,) = files._files
            if asked.header and file.start == 0:
                raise Fault(f"{name}: the file is empty, and has no header", name, is_named=True)
            if not asked.append and set(files.columns) != set(reading["columns"] or ()):
                _tell(f"{note}columns {listed(files.columns)}")
            try:
                made = files.index(rows=asked.rows, bounds=asked.bytes)
            except BadRecord as error:
                raise bad_record(error, name, file.setup, False) from None
            made.close()
            if asked.lenient:
                _tell(f"{note}{made.nulled} words became nulls; {made.longer} records had fields too many")
    except StaleIndex as error:
        if asked.append and "while it was read" not in str(error):
            raise fault_of(error, name) from None
        raise Fault(f"{name}: the file changed while it was read", name, is_named=True) from None
    except (DoqallinError, OSError) as error:
        raise fault_of(error, name) from None


def _index(asked: argparse.Namespace, parser: argparse.ArgumentParser) -> int:
    if asked.rows < 1 or asked.bytes < 0:
        parser.error("--rows is at least 1, and --bytes at least 0")
    if asked.append and _is_said(asked):
        parser.error("--append reads records as the index says")
    reading, names = _reading(asked), _named(asked.words)
    has_failed = _each(names, lambda name: _make_index(asked, reading, f"{name}: " if len(names) > 1 else "", name))
    return _FAILED if has_failed else 0


def _show(asked: argparse.Namespace, parser: argparse.ArgumentParser) -> int:
    name = asked.file
    try:
        source = _Source(name, True).index()
        if source is None:
            raise no_index(name)
        index = Index(source.read)
        zones, parts = index.plan("true").zones, index.parts
    except (DoqallinError, OSError) as error:
        raise fault_of(error, name) from None
    lines = [f"{parts.file_length} bytes, {len(zones)} zones of {index.setup.zone_rows} records, columns {listed(index.setup.columns)}"]
    for number, zone in enumerate(zones, 1):
        lines.append(f"zone {number}: byte {zone.place}, {zone.length} bytes, {zone.records} records, {zone.rows} rows")
    _write("".join(f"{line}\n" for line in lines).encode())
    return 0


_Command = Callable[[argparse.Namespace, argparse.ArgumentParser], int]
_COMMANDS: dict[str, tuple[Callable[[], argparse.ArgumentParser], _Command]] = {
    "index": (_index_parser, _index),
    "find": (_find_parser, _search),
    "count": (lambda: _search_parser("count", "Writes how many rows match in each file."), _search),
    "show": (_show_parser, _show),
}


def _answer(words: Sequence[str]) -> int:
    """Does what the words ask."""
    if not words or words[0] not in _COMMANDS:
        parser = argparse.ArgumentParser("python -m doqallin", description="Rows of CSV files that match a filter, as SQL's WHERE has it.", epilog=_STATUS)
        parser.add_argument("command", choices=list(_COMMANDS), help="COMMAND --help lists its options")
        parser.parse_args(words[:1])
    make, do = _COMMANDS[words[0]]
    parser = make()
    asked = parser.parse_intermixed_args(words[1:], argparse.Namespace(command=words[0], numbers=False))
    return do(asked, parser)


def main() -> int:
    """Does what the command line asks. The status is 0 if a row was found, 1 if none was, and 2 after an error."""
    try:
        try:
            status = _answer(sys.argv[1:])
        finally:
            _flush()
    except Fault as fault:
        _tell(fault.text)
        return _FAILED
    return status


def _flush() -> None:
    try:
        sys.stdout.flush()
    except OSError:
        # What is left is not written again at the end.
        os.dup2(os.open(os.devnull, os.O_WRONLY), sys.stdout.fileno())
        raise Fault("write failed") from None


if __name__ == "__main__":
    sys.exit(main())
