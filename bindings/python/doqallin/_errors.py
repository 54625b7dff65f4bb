# SPDX-License-Identifier: Apache-2.0
# SPDX-FileCopyrightText: Copyright the Vortex contributors; ported to Rattle and changed
"""What this package raises."""

from __future__ import annotations

from typing import Any, TypeVar

__all__ = [
    "BadBytes",
    "BadFilter",
    "BadKey",
    "BadIndex",
    "BadOffsets",
    "BadRecord",
    "BadText",
    "BadType",
    "CannotCast",
    "DoqallinError",
    "HasVariant",
    "Invalid",
    "KindsDiffer",
    "LibraryMissing",
    "NegativeLength",
    "NoColumn",
    "NoField",
    "NoOrder",
    "NotANumber",
    "NotAValue",
    "NotUtf8",
    "OutOfMemory",
    "Refused",
    "StaleIndex",
    "StreamFailed",
    "TooDeep",
    "TooManyRows",
    "TooShort",
    "UnknownKind",
    "WrongLength",
]


class DoqallinError(Exception):
    """The base of this package's errors. An argument of another type is a TypeError, which is none of them."""

    __module__ = "doqallin"

    place: int | None = None
    """Where it is, if that is known: the row of a column, the buffer that is too short, or the byte of bytes or of a text."""

    def __init_subclass__(cls, **words: Any) -> None:
        super().__init_subclass__(**words)
        cls.__module__ = "doqallin"


class OutOfMemory(DoqallinError, MemoryError):
    """An allocation was refused."""


class NotUtf8(DoqallinError, ValueError):
    """Bytes that are to be a string are not UTF-8."""


class NotANumber(DoqallinError, ValueError):
    """An integer type does not have the number that is said to be of it."""


class NotAValue(DoqallinError, ValueError):
    """A logical type does not have a value that is said to be of it: a time after the end of the day, too many digits. Or Python
    does not have one of a column: a date before the year 1, a time with nanoseconds. `place` is the row, and `item` what stores
    the value, or is to be stored."""

    item: Any = None


class BadOffsets(DoqallinError, ValueError):
    """An offset of a column is below the one before it, or past the end of the bytes."""


class NegativeLength(DoqallinError, ValueError):
    """A length in bytes is below 0."""


_Error = TypeVar("_Error", bound=DoqallinError)


def at(error: _Error, place: int) -> _Error:
    """The error, with its place."""
    error.place = place
    return error


class LibraryMissing(DoqallinError, ImportError):
    """A library is not in the folder where it is looked for. The message says which, and what makes it."""


class BadText(DoqallinError, ValueError):
    """A text is no type or no scalar. `text` is it, and `place` where reading ended."""

    def __init__(self, text: str, place: int) -> None:
        super().__init__(text, place)
        self.text, self.place = text, place

    def __str__(self) -> str:
        return f"{self.text!r} cannot be read at {self.place}"


class BadType(DoqallinError, ValueError):
    """There is no such type. `cause` is why: `NullableKey` or `RepeatedTypeId`."""

    def __init__(self, cause: str) -> None:
        super().__init__(cause)
        self.cause = cause


class Invalid(DoqallinError, ValueError):
    """A value does not fit its type. `path` leads to the first such part, the outermost step first, and `breach` says why."""

    def __init__(self, path: tuple[str, ...], breach: str) -> None:
        super().__init__(path, breach)
        self.path, self.breach = path, breach

    def __str__(self) -> str:
        return f"{self.breach} at {'/'.join(self.path) or 'the value itself'}"


class NoField(DoqallinError, ValueError):
    """A struct lacks a field of this name, or a dict lacks a field of the struct."""


class CannotCast(DoqallinError, ValueError):
    """The type does not have the value. Of a column, `place` is the first row whose value it does not have."""


class NoOrder(DoqallinError, TypeError):
    """Neither of two scalars is before the other, nor are they equal."""


class HasVariant(DoqallinError, ValueError):
    """The type contains a variant, so it has no key."""


class BadKey(DoqallinError, ValueError):
    """Bytes are no key of the type. `place` is the first byte that none has there."""

    def __init__(self, place: int) -> None:
        super().__init__(place)
        self.place = place

    def __str__(self) -> str:
        return f"no key of the type has byte {self.place}"


class TooDeep(DoqallinError, ValueError):
    """More than 32 brackets nest in a type or a value. `call` takes a line that nests deeper, if its caller says how deep."""


class Refused(DoqallinError):
    """A refusal that has no class of its own. The message is its name, and what it says."""


class UnknownKind(DoqallinError, TypeError):
    """Columns are not of this kind, or the call does not take it. The message names it, and says what takes its place."""


class KindsDiffer(DoqallinError, TypeError):
    """A column, or statistics, are of another kind than asked for."""


class TooManyRows(DoqallinError, ValueError):
    """64 bits do not count the rows."""


class TooShort(DoqallinError, ValueError):
    """A buffer of a column is too short for its offset and length."""


class BadBytes(DoqallinError, ValueError):
    """Bytes are not of the encoding that is read. `place` is the first such byte."""


class BadFilter(DoqallinError, ValueError):
    """A text is no filter of these columns. `place` is the byte of the text where something else had to come."""


class NoColumn(DoqallinError, LookupError):
    """A table has no column of this name, or two."""


class WrongLength(DoqallinError, ValueError):
    """Numbers of columns, rows, options or zones that are to be equal differ."""


class StreamFailed(DoqallinError, OSError):
    """An Arrow stream gave no schema or no chunk. The message is the stream's own."""


class BadIndex(DoqallinError, ValueError):
    """A file is no index, it is damaged or cut, or another version wrote it. The message says which."""


class StaleIndex(DoqallinError, ValueError):
    """A file is not the one that its index is of: it is longer, shorter, or was changed since."""


class BadRecord(DoqallinError, ValueError):
    """A record of a file is no row of its columns. `place` is the offset at which it begins, and `column` the name of the column
    that does not take its field, if it is one. When an index is made, `line` is the line of the file, from 1, and `word` the field."""

    column: str | None = None
    line: int | None = None
    word: bytes | None = None
