# SPDX-License-Identifier: Apache-2.0
"""A consumer of Arrow data for the tests, by ctypes alone, as the C data interface says. It reads the memory item by item."""

from __future__ import annotations

import ctypes
from ctypes import byref
from typing import Any

from producer import _NAMES, CArray, CSchema, CStream, _pointer

# The bytes of an item of the formats that are not letters of integers.
_WIDTHS = {"f": 4, "g": 8, "tdD": 4, "tts": 4, "ttm": 4, "ttu": 8, "ttn": 8, "32": 4, "64": 8}
_INTEGERS = {"C": 1, "c": 1, "S": 2, "s": 2, "I": 4, "i": 4, "L": 8, "l": 8}


def moved(source: Any) -> Any:
    """A structure that is moved, which leaves the place where it was released."""
    taken = type(source)()
    ctypes.memmove(byref(taken), byref(source), ctypes.sizeof(source))
    source.release = type(source.release)()
    return taken


def take(capsule: Any, of: Any) -> Any:
    """The structure of a capsule, taken out of it."""
    return moved(of.from_address(_pointer(id(capsule), _NAMES[of])))


def release(structure: Any) -> None:
    assert structure.release, "it was released before"
    structure.release(byref(structure))
    assert not structure.release, "it is not marked as released"


def width_of(form: str) -> int:
    """The bytes of an item of a format that has items."""
    if form.startswith("d:"):
        digits = form[2:].split(",")
        return _WIDTHS[digits[2]] if len(digits) > 2 else 16
    return 8 if form.startswith("ts") else {**_WIDTHS, **_INTEGERS}[form]


def _bit(address: int, place: int) -> bool:
    return bool(ctypes.c_uint8.from_address(address + place // 8).value >> place % 8 & 1)


def _text(array: Any, width: int, place: int) -> bytes:
    start, end = ((ctypes.c_int32 if width == 4 else ctypes.c_int64) * 2).from_address(array.buffers[1] + width * place)
    return ctypes.string_at(array.buffers[2] + start, end - start)


def items(form: str, array: Any) -> list[Any]:
    """The items of an array: bytes, truths, or None."""
    count = {"n": 0, "u": 3, "U": 3, "z": 3, "Z": 3}.get(form, 2)
    assert (array.n_buffers, array.n_children, bool(array.dictionary)) == (count, 0, False)
    if form == "n":
        assert array.null_count == array.length
        return [None] * array.length
    places = range(array.offset, array.offset + array.length)
    nulls = [place for place in places if array.buffers[0] and not _bit(array.buffers[0], place)]
    assert array.null_count in (-1, len(nulls)) and (array.buffers[0] or array.null_count == 0)
    if form == "b":
        found: list[Any] = [_bit(array.buffers[1], place) for place in places]
    elif count == 3:
        found = [_text(array, 4 if form in "uz" else 8, place) for place in places]
    else:
        width = width_of(form)
        found = [ctypes.string_at(array.buffers[1] + width * place, width) for place in places]
    return [None if place in nulls else item for place, item in zip(places, found)]


def formats(schema: Any) -> list[tuple[bytes, str]]:
    """The names and the formats of a struct's children."""
    assert (schema.format, bool(schema.dictionary), schema.metadata) == (b"+s", False, None)
    children = [schema.children[place][0] for place in range(schema.n_children)]
    assert all(child.flags == 2 and child.n_children == 0 for child in children)
    return [(child.name, child.format.decode()) for child in children]


class Batches:
    """The batches of a stream, each as a dict of the items of its columns, and each released before the next one comes."""

    def __init__(self, capsule: Any):
        self.stream = take(capsule, CStream)
        self.schema = CSchema()
        assert self.stream.get_schema(byref(self.stream), byref(self.schema)) == 0
        self.formats = formats(self.schema)
        release(self.schema)

    def next(self) -> Any:
        """The next array, or None."""
        array = CArray()
        assert self.stream.get_next(byref(self.stream), byref(array)) == 0
        return array if array.release else None

    def read(self) -> list[dict[bytes, list[Any]]]:
        found = []
        while (array := self.next()) is not None:
            assert (array.n_buffers, array.buffers[0], array.n_children, array.offset) == (1, None, len(self.formats), 0)
            children = [array.children[place][0] for place in range(array.n_children)]
            assert all(child.length == array.length for child in children)
            found.append({name: items(form, child) for (name, form), child in zip(self.formats, children)})
            release(array)
        assert self.next() is None
        release(self.stream)
        return found


class Lent:
    """Another's Arrow data: what lends it by its capsules, and is no column of the package."""

    def __init__(self, lender: Any):
        if hasattr(lender, "__arrow_c_stream__"):
            self.__arrow_c_stream__ = lender.__arrow_c_stream__
        else:
            self.__arrow_c_array__ = lender.__arrow_c_array__
