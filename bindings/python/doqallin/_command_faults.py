# SPDX-License-Identifier: Apache-2.0
# SPDX-FileCopyrightText: Copyright the Vortex contributors; ported to Rattle and changed
"""What `python -m doqallin` says that is wrong, in the words of the program zone_map."""

from __future__ import annotations

import json
import re
from collections.abc import Mapping

from ._errors import BadBytes, BadFilter, BadIndex, BadRecord, NoColumn, StaleIndex
from ._searches import _OF_RECORD, Setup

__all__: list[str] = []

_FIELD_COUNT = "the record has fewer fields than the {} columns, or more; --lenient takes it, where columns take nulls"
_LONE_RETURN = "a carriage return inside of a record, without a line feed"
_NO_KIND = "--columns: a name and a kind, as 'city utf8?' or 'fare decimal(10,2)'; there is no such kind"
_PLAIN_NAME = re.compile(r"[A-Za-z0-9_$]+")


class Fault(Exception):
    """Why a command stops, or passes over one of several files: `file`, unless it is about all."""

    def __init__(self, text: str, file: str | None = None, is_named: bool = False) -> None:
        super().__init__(text)
        self.text, self.file, self.is_named = text, file, is_named

    def named(self) -> str:
        """What is said behind the name of the file, if it does not begin with it."""
        if self.is_named:
            return self.text
        return f"{self.file}:{chr(10) if chr(10) in self.text else ' '}{self.text}"


def quoted(text: str) -> str:
    """A text in double quotes."""
    return json.dumps(text, ensure_ascii=False)


def listed(columns: Mapping[str, str]) -> str:
    """Columns as --columns takes them."""
    return ", ".join(f"{name if _PLAIN_NAME.fullmatch(name) else _in_quotes(name)} {kind}" for name, kind in columns.items())


def _in_quotes(name: str) -> str:
    return '"' + name.replace('"', '""') + '"'


def no_index(name: str) -> Fault:
    return Fault(f"{name}: there is no index; `python -m doqallin index` makes one", name, is_named=True)


def fault_of(error: Exception, name: str) -> Fault:
    """The fault of a file of this name."""
    if isinstance(error, BadBytes):
        return Fault(_NO_KIND)
    if isinstance(error, MemoryError):
        return Fault("out of memory", name)
    if isinstance(error, NoColumn):
        return Fault(f"{name}: No such file or directory (os error 2)", name, is_named=True)
    if isinstance(error, StaleIndex):
        return Fault(f"{name}: the file has changed since it was indexed; index it again, or say --grown or --append if it was only appended to", name, is_named=True)
    if isinstance(error, BadIndex):
        return Fault(f"{name}.zones: {error}; index the file again", name, is_named=True)
    if isinstance(error, OSError) and error.errno is not None:
        return Fault(f"{name}: {error.strerror} (os error {error.errno})", name, is_named=True)
    return Fault(str(error), name)


def bad_filter(error: BadFilter, name: str, filter: str, columns: Mapping[str, str]) -> Fault:
    """The line of the filter that is wrong, and below it what is wrong, at its place."""
    place = error.place or 0
    mistake = str(error).removeprefix(f"byte {place} of {filter!r}: ")
    before, after = (part.decode(errors="replace") for part in (filter.encode(errors="replace")[:place], filter.encode(errors="replace")[place:]))
    before, after = before.rpartition("\n")[2], after.partition("\n")[0]
    blanks = "".join("\t" if letter == "\t" else " " for letter in before)
    text = f"{before}{after}\n{blanks}^ byte {place}: {mistake}"
    if mistake == "no such column":
        text += f"\nthe columns are {listed(columns)}"
    # The words themselves are wrong, or only over these columns.
    is_of_all = mistake.startswith("expected") or mistake in ("no token", "nested too deep")
    return Fault(text, None if is_of_all else name)


def bad_record(error: BadRecord, name: str, setup: Setup, is_input: bool) -> Fault:
    """The line of a record without a row, in standard input its offset, and why it has none."""
    place = f"byte {error.place}" if is_input else f"{name}:{error.line}"
    if error.column is None:
        why = _FIELD_COUNT.format(len(setup.columns)) if str(error).endswith(_OF_RECORD[1]) else _LONE_RETURN
        return Fault(f"{place}: {why}", name, is_named=not is_input)
    number, word, nulls = list(setup.columns).index(error.column), error.word or b"", setup.columns[error.column].endswith("?")
    try:
        shown, kind, taken = quoted(word.decode()), "utf8", "text"
    except UnicodeDecodeError:
        shown, kind, taken = f"x'{word.hex()}'", "bytes", "its bytes"
    columns = {error.column: f"{kind}{'?' if nulls else ''}"}
    # No header has a name that was made.
    taking = listed({**setup.columns, **columns} if error.column.startswith("$") else columns)
    ways = f"; --columns '{taking}' takes it as {taken}" + ("; --lenient takes it as a null" if nulls else "")
    return Fault(f"{place}: column {number + 1}, {error.column}, does not take {shown}{ways}", name, is_named=not is_input)
