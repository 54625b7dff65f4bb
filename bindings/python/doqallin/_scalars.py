# SPDX-License-Identifier: Apache-2.0
# SPDX-FileCopyrightText: Copyright the Vortex contributors; ported to Rattle and changed
"""Scalars: a type, and a value of it or none. Each call is a line of `call`."""

from __future__ import annotations

import functools
from collections.abc import Mapping
from typing import Any

from ._errors import BadKey, BadText, BadType, CannotCast, DoqallinError, HasVariant, Invalid, NoField, NoOrder, NotANumber, OutOfMemory, Refused, TooDeep
from ._kinds import INTEGERS
from ._library import call
from ._types import DType, Reader, dtype, quoted

__all__ = ["Scalar", "scalar"]

_ANY = dtype("null")


@functools.lru_cache(maxsize=4096)
def _written(of: str | DType) -> str:
    return str(dtype(of))


def _refusal(answer: str) -> DoqallinError:
    """The error that an answer names."""
    name, *words = answer.split(" ")
    if name == "CannotCast":
        return CannotCast("no value of the type has this content, or there is no such cast")
    if name == "Invalid":
        return Invalid(() if words[0] == "." else tuple(words[0].split("/")), words[1])
    if name == "BadType":
        return BadType(words[0])
    if name == "BadKey":
        return BadKey(int(words[0]))
    if name == "HasVariant":
        return HasVariant("a variant has no key")
    if name == "OutOfMemory":
        return OutOfMemory("an allocation was refused")
    if name == "TooDeep":
        return TooDeep("more than 32 brackets nest")
    return Refused(answer)


def _ask(line: str) -> str:
    answer = call(line)
    if "A" <= answer[:1] <= "Z":
        raise _refusal(answer)
    if answer == "bad line":
        raise BadText(line, 0)
    return answer


def _integer_text(number: int, of: DType) -> str:
    kind = of.kind if of.kind in INTEGERS else "i64" if number < 2**63 else "u64"
    bits = int(kind[1:])
    least, end = (-(2 ** (bits - 1)), 2 ** (bits - 1)) if kind[0] == "i" else (0, 2**bits)
    if not least <= number < end:
        raise NotANumber(f"{kind} does not have {number}")
    return f"{number}{kind}"


def _struct_text(value: Mapping[str, Any], of: DType) -> str:
    for name in value:
        if name not in of.names:
            raise NoField(f"the type has no field {name!r}")
    missing = [name for name in of.names if name not in value]
    if missing:
        raise NoField(f"there is no value for the field {missing[0]!r}")
    return "[" + ", ".join(value_text(value[name], child) for name, child in zip(of.names, of.children)) + "]"


def _parts_text(value: list[Any] | tuple[Any, ...], of: DType) -> str:
    """Parts in brackets. Those that the type does not have are written all the same: the library says so."""
    if of.kind in ("list", "fsl"):
        return "[" + ", ".join(value_text(part, of.children[0]) for part in value) + "]"
    children = of.children if of.kind == "struct" else ()
    types = [*children, *[_ANY] * max(0, len(value) - len(children))]
    return "[" + ", ".join(value_text(part, child) for part, child in zip(value, types)) + "]"


def _map_text(entries: Any, of: DType) -> str:
    def entry(pair: Any) -> str:
        types = [*of.children, *[_ANY] * len(pair)]
        return "[" + ", ".join(value_text(part, child) for part, child in zip(pair, types)) + "]"

    return "[" + ", ".join("null" if pair is None else entry(pair) for pair in entries) + "]"


def value_text(value: Any, of: DType) -> str:
    """The value as a line has it behind a type."""
    while of.kind == "ext":
        of = of.children[0]
    if isinstance(value, Scalar):
        return f"<{value._text}>" if of.kind == "variant" else value.value_text
    if value is None:
        return "null"
    if isinstance(value, bool):
        return "true" if value else "false"
    if isinstance(value, int):
        return _integer_text(value, of)
    if isinstance(value, str):
        return quoted(value)
    if isinstance(value, (bytes, bytearray, memoryview)):
        return "x" + bytes(value).hex()
    if of.kind == "map":
        return _map_text(value.items() if isinstance(value, Mapping) else value, of)
    if of.kind == "union" and isinstance(value, tuple) and len(value) == 2:
        children = dict(zip(of.type_ids, of.children))
        return f"{value[0]}({value_text(value[1], children.get(value[0], _ANY))})"
    if isinstance(value, Mapping) and of.kind == "struct":
        return _struct_text(value, of)
    if isinstance(value, (list, tuple)):
        return _parts_text(value, of)
    raise TypeError(f"a {type(value).__name__} is no value of {of}")


class _Values(Reader):
    """Reads values back."""

    def value(self, of: DType) -> Any:
        while of.kind == "ext":
            of = of.children[0]
        first = self.peek()
        if first == '"':
            return self.string()
        if first == "[":
            self.place += 1
            return self._parts(of)
        if first == "<":
            return self._variant()
        if first == "x":
            self.place += 1
            return self.hex()
        if first == "-" or first.isdigit():
            return self._number(of)
        return {"null": None, "true": True, "false": False}[self.word()]

    def _number(self, of: DType) -> Any:
        sign = -1 if self.takes("-") else 1
        number = sign * self.number()
        if self.takes("("):
            child = dict(zip(of.type_ids, of.children))[number]
            value = self.value(child)
            self.need(")")
            return number, value
        self.word()
        return number

    def _parts(self, of: DType) -> Any:
        values: list[Any] = []
        if of.kind == "map":
            self.parts("]", lambda: values.append(self._entry(of)))
        elif of.kind == "struct":
            self.parts("]", lambda: values.append(self.value(of.children[len(values)])))
            return dict(zip(of.names, values)) if len(set(of.names)) == len(of.names) else values
        else:
            self.parts("]", lambda: values.append(self.value(of.children[0])))
        return values

    def _entry(self, of: DType) -> tuple[Any, Any]:
        self.need("[")
        key = self.value(of.children[0])
        self.need(",")
        value = self.value(of.children[1])
        self.need("]")
        return key, value

    def _variant(self) -> Scalar:
        self.need("<")
        start = self.place
        of = self.dtype()
        self.need(":")
        self.value(of)
        text = self.text[start : self.place]
        self.need(">")
        return Scalar._of(text)


class Scalar:
    """A type, and a value of it or none. `scalar` makes one.

    Scalars are equal if their types are, up to nullability, and their values are. A null is the least of its type.

    >>> small, large = scalar(3, "u8"), scalar(200, "u8?")
    >>> small < large, small == scalar(3, "u8?"), small == scalar(3, "u16")
    (True, True, False)
    >>> large.cast("i16"), large.as_py()
    (scalar(200, 'i16'), 200)
    """

    __slots__ = ("_text",)
    _text: str

    def __init__(self) -> None:
        raise TypeError("doqallin.scalar makes scalars")

    @classmethod
    def _of(cls, text: str) -> Scalar:
        """The scalar that the library wrote."""
        made = object.__new__(cls)
        made._text = text
        return made

    @classmethod
    def from_text(cls, text: str) -> Scalar:
        """The scalar of a text: a type, a colon and a value, as `str` writes it.

        Raises BadText if the text is none, and Invalid if the value does not fit the type.

        >>> Scalar.from_text("list(u8?):[1u8, null]").as_py()
        [1, None]
        """
        if " => " in text:
            # Outside of a string it would end the line. No line has two scalars then.
            _ask(f"equal {text} {text}")
        return cls._of(_ask(f"try_new {text}"))

    @classmethod
    def from_key(cls, key: bytes, of: str | DType, *, descending: bool = False, nulls_first: bool = True) -> Scalar:
        """The scalar of exactly this type whose key the bytes are.

        Raises BadKey with the first byte that no key of the type has there.

        >>> Scalar.from_key(bytes.fromhex("0dc8"), "u8")
        scalar(200, 'u8')
        """
        answer = _ask(f"from_key {_written(of)} x{key.hex()}{_options(descending, nulls_first)}")
        text, _, length = answer.rpartition(", ")
        if int(length) != len(key):
            raise BadKey(int(length))
        return cls._of(text)

    @property
    def dtype(self) -> DType:
        """The type."""
        reader = Reader(self._text)
        return reader.dtype()

    @property
    def value_text(self) -> str:
        """The value alone, as text."""
        reader = Reader(self._text)
        reader.dtype()
        return self._text[reader.place + 1 :]

    @property
    def is_null(self) -> bool:
        """Whether there is no value."""
        return self._text.endswith(":null")

    def as_py(self) -> Any:
        """The value as Python has it.

        Numbers, strings, bytes and truths are those of Python. Of a list it is a list, of a struct a dict, of a map a list of
        pairs, of a union the type id and the value, of a variant the scalar within, of an extension what it stores.

        >>> scalar({"name": "Oslo", "rides": [1, None]}, "{name: utf8, rides: list(u8?)}").as_py()
        {'name': 'Oslo', 'rides': [1, None]}
        """
        reader = _Values(self._text)
        of = reader.dtype()
        reader.need(":")
        return reader.value(of)

    def cast(self, to: str | DType) -> Scalar:
        """The one value of the other type with the same content.

        Raises CannotCast if there is none, or if there is no such cast: none makes a number of a string.

        >>> scalar([1, 2], "list(u8)").cast("fsl(i64, 2)")
        scalar([1, 2], 'fsl(i64, 2)')
        >>> scalar(300, "i32").cast("u8")
        Traceback (most recent call last):
        doqallin.CannotCast: no value of the type has this content, or there is no such cast
        """
        return Scalar._of(_ask(f"cast {self._text} {_written(to)}"))

    def key(self, *, descending: bool = False, nulls_first: bool = True) -> bytes:
        """Bytes that sort as the scalars of the type do. Raises HasVariant if the type contains a variant.

        >>> scalar(-256, "i16").key().hex()
        '0afeff'
        """
        return bytes.fromhex(_ask(f"key {self._text}{_options(descending, nulls_first)}")[1:])

    def __eq__(self, other: object) -> bool:
        if not isinstance(other, Scalar):
            return NotImplemented
        return self._text == other._text or _ask(f"equal {self._text} {other._text}") == "true"

    def __hash__(self) -> int:
        # Equal scalars have equal keys.
        try:
            return hash(self.key())
        except HasVariant:
            return 0

    def _order(self, other: Scalar) -> str:
        order = _ask(f"order {self._text} {other._text}")
        if order == "none":
            raise NoOrder(f"{self.dtype} and {other.dtype}, or their parts, have no order")
        return order

    def __lt__(self, other: Scalar) -> bool:
        return self._order(other) == "less" if isinstance(other, Scalar) else NotImplemented

    def __le__(self, other: Scalar) -> bool:
        return self._order(other) != "greater" if isinstance(other, Scalar) else NotImplemented

    def __gt__(self, other: Scalar) -> bool:
        return self._order(other) == "greater" if isinstance(other, Scalar) else NotImplemented

    def __ge__(self, other: Scalar) -> bool:
        return self._order(other) != "less" if isinstance(other, Scalar) else NotImplemented

    def __str__(self) -> str:
        return self._text

    def __repr__(self) -> str:
        return f"scalar({self.as_py()!r}, {str(self.dtype)!r})"

    def __reduce__(self) -> tuple[Any, ...]:
        return Scalar.from_text, (self._text,)


def _options(descending: bool, nulls_first: bool) -> str:
    return (" desc" if descending else "") + ("" if nulls_first else " nulls_last")


def scalar(value: Any, of: str | DType | None = None) -> Scalar:
    """The scalar of this type and value.

    A list is given as a list, a struct as a dict by field or as a list, a map as a dict or as pairs, a union as its type id and
    a value, a variant as a scalar. Without a type it is `i64`, `bool`, `utf8`, `binary` or `null`, by the value.

    Raises Invalid with the path to the first part that does not fit its type.

    >>> scalar([1, 2, None], "list(u8?)").cast("fsl(i64?, 3)")
    scalar([1, 2, None], 'fsl(i64?, 3)')
    >>> scalar([[1], [None]], "list(list(i32))")
    Traceback (most recent call last):
    doqallin.Invalid: NullNotAllowed at Element(1)/Element(0)
    """
    made = _type_of(value) if of is None else dtype(of)
    return Scalar._of(_ask(f"try_new {_written(made)}:{value_text(value, made)}"))


def _type_of(value: Any) -> DType:
    if isinstance(value, Scalar):
        return value.dtype
    for kind, name in ((bool, "bool"), (int, "i64"), (str, "utf8"), ((bytes, bytearray, memoryview), "binary"), (type(None), "null")):
        if isinstance(value, kind):  # type: ignore[arg-type]
            return dtype(name)
    raise TypeError(f"say the type of a {type(value).__name__}")
