# SPDX-License-Identifier: Apache-2.0
# SPDX-FileCopyrightText: Copyright the Vortex contributors; ported to Rattle and changed
"""Types, as a person writes them, and the tokens of that language."""

from __future__ import annotations

import functools
import re
from collections.abc import Callable
from dataclasses import dataclass, replace

from ._errors import BadText
from ._kinds import INTEGERS

__all__ = ["DType", "dtype"]

LEAVES = ("null", "bool", "utf8", "binary", "variant", *INTEGERS)
_ESCAPES = {"n": "\n", "r": "\r", "t": "\t", '"': '"', "\\": "\\"}
_QUOTED = re.compile(r'"(?:[^"\\]|\\.)*"', re.S)
_WORD = re.compile(r"[A-Za-z_][A-Za-z0-9_]*")
_DIGITS = re.compile(r"[0-9]+")
_HEX = re.compile(r"(?:[0-9A-Fa-f]{2})*")


def quoted(text: str) -> str:
    """The text in quotes, in one line."""

    def escape(found: re.Match[str]) -> str:
        letter = found.group()
        return f"\\{letter}" if letter in '"\\' else f"\\u{{{ord(letter):x}}}"

    return '"' + re.sub(r'["\\\x00-\x1f\x7f]', escape, text) + '"'


class Reader:
    """Reads tokens. What cannot be read is a BadText."""

    def __init__(self, text: str) -> None:
        self.text = text
        self.place = 0

    def bad(self) -> BadText:
        return BadText(self.text, self.place)

    def peek(self) -> str:
        """The next letter that is no space, or nothing at the end."""
        while self.text.startswith(" ", self.place):
            self.place += 1
        return self.text[self.place : self.place + 1]

    def takes(self, token: str) -> bool:
        is_next = self.peek() == token
        self.place += is_next
        return is_next

    def need(self, token: str) -> None:
        if not self.takes(token):
            raise self.bad()

    def matched(self, pattern: re.Pattern[str]) -> str:
        self.peek()
        found = pattern.match(self.text, self.place)
        if found is None:
            raise self.bad()
        self.place = found.end()
        return found.group()

    def end(self) -> None:
        if self.peek():
            raise self.bad()

    def word(self) -> str:
        return self.matched(_WORD)

    def number(self) -> int:
        return int(self.matched(_DIGITS))

    def hex(self) -> bytes:
        return bytes.fromhex(self.matched(_HEX))

    def string(self) -> str:
        start = self.place

        def unescape(found: re.Match[str]) -> str:
            code, letter = found.groups()
            if code is not None:
                return chr(int(code, 16))
            if letter not in _ESCAPES:
                self.place = start
                raise self.bad()
            return _ESCAPES[letter]

        return re.sub(r"\\(?:u\{([0-9A-Fa-f]+)\}|(.))", unescape, self.matched(_QUOTED)[1:-1])

    def name(self) -> str:
        return self.string() if self.peek() == '"' else self.word()

    def parts(self, close: str, read: Callable[[], None]) -> None:
        """Parts with commas between them, up to the closing bracket."""
        if self.takes(close):
            return
        read()
        while not self.takes(close):
            self.need(",")
            read()

    def dtype(self) -> DType:
        bare = self._bare()
        return bare.as_nullable() if self.takes("?") else bare

    def _bare(self) -> DType:
        if self.takes("{"):
            return self._named("struct", "}")
        start = self.place
        word = self.word()
        if word in LEAVES:
            return DType(word, word == "null")
        if word not in ("list", "fsl", "map", "union", "ext"):
            self.place = start
            raise self.bad()
        self.need("(")
        if word == "union":
            return self._named("union", ")")
        made = self._of_parts(word)
        self.need(")")
        return made

    def _of_parts(self, word: str) -> DType:
        if word == "ext":
            identity = self.name()
            self.need(",")
            metadata = self.hex()
            self.need(",")
            storage = self.dtype()
            return DType(word, storage.is_nullable, (storage,), (identity,), metadata=metadata)
        first = self.dtype()
        if word == "list":
            return DType(word, False, (first,))
        self.need(",")
        if word == "fsl":
            return DType(word, False, (first,), size=self.number())
        value = self.dtype()
        keys_sorted = self.takes(",")
        if keys_sorted and self.word() != "sorted":
            raise self.bad()
        return DType(word, False, (first, value), keys_sorted=keys_sorted)

    def _named(self, kind: str, close: str) -> DType:
        names: list[str] = []
        children: list[DType] = []
        type_ids: list[int] = []

        def read() -> None:
            if kind == "union":
                type_ids.append(self.number())
            names.append(self.name())
            self.need(":")
            children.append(self.dtype())

        self.parts(close, read)
        return DType(kind, False, tuple(children), tuple(names), tuple(type_ids))


@dataclass(frozen=True, repr=False)
class DType:
    """A type. `dtype` reads one, and `str` writes it.

    >>> of = dtype("{name: utf8, rides: list(u8?)}?")
    >>> of.kind, of.names, of.is_nullable
    ('struct', ('name', 'rides'), True)
    >>> of.children[1]
    dtype('list(u8?)')
    """

    kind: str
    """One of `null bool u8 .. i64 utf8 binary list fsl map struct union variant ext`."""
    is_nullable: bool
    children: tuple[DType, ...] = ()
    """The element, the key and the value, the fields, the variants, or what an extension stores."""
    names: tuple[str, ...] = ()
    """Of the fields or the variants; of an extension its id alone."""
    type_ids: tuple[int, ...] = ()
    """Of the variants."""
    size: int = 0
    """Of a list of fixed size."""
    keys_sorted: bool = False
    """Whether the keys of a map are said to be sorted."""
    metadata: bytes = b""
    """Of an extension."""

    def as_nullable(self) -> DType:
        """The type made nullable; what an extension stores is made nullable."""
        if self.kind == "ext":
            return replace(self, is_nullable=True, children=(self.children[0].as_nullable(),))
        return replace(self, is_nullable=True)

    def __str__(self) -> str:
        mark = "?" if self.is_nullable and self.kind not in ("null", "ext") else ""
        return self._text() + mark

    def __repr__(self) -> str:
        return f"dtype({str(self)!r})"

    def _text(self) -> str:
        parts = [str(child) for child in self.children]
        if self.kind in LEAVES:
            return self.kind
        if self.kind == "struct":
            return "{" + ", ".join(f"{_name(name)}: {part}" for name, part in zip(self.names, parts)) + "}"
        if self.kind == "union":
            of_each = zip(self.type_ids, self.names, parts)
            parts = [f"{number} {_name(name)}: {part}" for number, name, part in of_each]
        if self.kind == "ext":
            parts = [_name(self.names[0]), self.metadata.hex(), *parts]
        if self.kind == "fsl":
            parts.append(str(self.size))
        if self.keys_sorted:
            parts.append("sorted")
        return f"{self.kind}({', '.join(parts)})"


def _name(name: str) -> str:
    return name if _WORD.fullmatch(name) else quoted(name)


@functools.lru_cache(maxsize=4096)
def _read(text: str) -> DType:
    reader = Reader(text)
    made = reader.dtype()
    reader.end()
    return made


def dtype(text: str | DType) -> DType:
    """The type that the text is: a kind, and `?` behind it if it is nullable.

    Kinds are `null`, `bool`, `u8` to `u64`, `i8` to `i64`, `utf8`, `binary`, `variant`, and those with parts: `list(i32)`,
    `fsl(i32, 2)`, `map(utf8, i64?)`, `{a: i32, b: utf8}`, `union(0 a: i32, 7 b: utf8)` and `ext(day, 01, i32)`. Raises BadText
    if the text is none. Whether there is such a type, the library says when a scalar of it is made.

    >>> dtype("fsl( i64?,3 )")
    dtype('fsl(i64?, 3)')
    """
    return text if isinstance(text, DType) else _read(text)
