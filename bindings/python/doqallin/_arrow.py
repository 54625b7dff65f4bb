# SPDX-License-Identifier: Apache-2.0
# SPDX-FileCopyrightText: Copyright the Vortex contributors; ported to Rattle and changed
"""Arrow's C data interface, as it is read: capsules and streams are taken over, and released once they are done with."""

from __future__ import annotations

import ctypes
from collections.abc import Callable, Iterator
from contextlib import contextmanager
from ctypes import byref, c_char_p, c_int64, c_void_p
from typing import Any, NamedTuple

from ._columns import EMPTY, Buffer, Column, bitmap_of, bits_of, buffer_of
from ._errors import StreamFailed, TooShort, UnknownKind
from ._interface import CAPSULES, Array, Schema, Stream, kind_of_format
from ._kinds import BINARY, NULL, UTF8, ColumnKind
from ._tables import Batch, Table, table_of

__all__: list[str] = []

_pointer_of = ctypes.PYFUNCTYPE(c_void_p, ctypes.py_object, c_char_p)(("PyCapsule_GetPointer", ctypes.pythonapi))


class Held:
    """A structure that was taken over from a capsule, or given by a stream. It is released once."""

    def __init__(self, structure: Any, capsule: object = None) -> None:
        self.structure = structure
        if capsule is not None:
            source = _pointer_of(capsule, CAPSULES[type(structure)])
            ctypes.memmove(byref(structure), source, ctypes.sizeof(structure))
            if not structure.release:
                raise ValueError("the capsule was released before")
            # The capsule has nothing left to release.
            moved = type(structure).from_address(source)
            moved.release = type(moved.release)()

    def release(self) -> None:
        if self.structure.release:
            self.structure.release(byref(self.structure))
            self.structure.release = type(self.structure.release)()

    __del__ = release


# What is not read, and the call that makes it plain.
_OTHERS = {
    "e": "float16 is not taken: cast it to float32, as by .cast('float32')",
    "vu": "a view of strings is not read: cast it to string, as by pyarrow's .cast('string') or polars' .to_arrow()",
    "vz": "a view of bytes is not read: cast it to binary, as by pyarrow's .cast('binary') or polars' .to_arrow()",
    "w:": "bytes of fixed size are not read: cast them to binary, as by .cast('binary')",
    "tD": "a duration is not taken: cast it to int64, as by .cast('int64')",
    "ti": "an interval is not read",
    "+l": "a list is not read",
    "+L": "a list is not read",
    "+v": "a view of lists is not read, nor is a list",
    "+w": "a list of fixed size is not read",
    "+m": "a map is not read",
    "+u": "a union is not read",
    "+r": "a run-end encoded column is not read: decode it first, as by pyarrow.compute.run_end_decode",
    "+s": "a struct within a struct is not read: give its columns, as by pyarrow's .flatten() or polars' .unnest(..)",
}
_DICTIONARY = "a column by a dictionary is not read: decode it first, as by .cast('string') if it has strings"
_DECIMAL = "decimals are taken to 38 digits, with a scale from 0 to the precision: cast it, as by .cast(pyarrow.decimal128(38, 2))"


class Field(NamedTuple):
    """What a schema says of a column."""

    name: str
    format: str
    has_dictionary: bool

    @classmethod
    def of(cls, schema: Schema) -> Field:
        # A name that is no UTF-8 is another name, and no mistake of the table.
        name = (schema.name or b"").decode(errors="surrogateescape")
        return cls(name, schema.format.decode(errors="replace"), bool(schema.dictionary))

    def kind(self) -> ColumnKind:
        """The kind of the format."""
        kind = None if self.has_dictionary else kind_of_format(self.format)
        if kind is not None:
            return kind
        words = _DECIMAL if self.format.startswith("d:") else _OTHERS.get(self.format[:2], "the format is not read")
        if self.has_dictionary:
            words = _DICTIONARY
        raise UnknownKind(f"{f'column {self.name!r}: ' if self.name else ''}{words} ({self.format})")


def _buffer(array: Array, place: int, length: int, owner: object) -> Buffer:
    address = array.buffers[place] if place < array.n_buffers else None
    return Buffer(address, length, owner) if address and length else EMPTY


def _need(array: Array, place: int, length: int, owner: object, name: str) -> Buffer:
    """A buffer that is not empty."""
    found = _buffer(array, place, length, owner)
    if not found.length:
        raise TooShort(f"an Arrow array has rows, and no {name}")
    return found


def _text_buffers(array: Array, kind: ColumnKind, end: int, owner: object) -> tuple[Buffer, Buffer]:
    """The bytes and the offsets. Arrow does not say how long they are: the last offset does."""
    item = ctypes.c_int32 if kind.code in (UTF8, BINARY) else c_int64
    offsets = _need(array, 1, ctypes.sizeof(item) * (end + 1), owner, "offsets")
    last = item.from_address(offsets.address + ctypes.sizeof(item) * end).value
    return _buffer(array, 2, max(0, last), owner), offsets


def _column(field: Field, array: Array, owner: object, before: int = 0, length: int | None = None) -> Column:
    """The column of an array. Of a struct's child, the struct's offset comes before its own, and the length is the struct's."""
    kind = field.kind()
    if min(array.offset, array.length) < 0:
        raise ValueError("an Arrow array has a length or an offset below 0")
    if length is not None and before + length > array.length:
        raise ValueError("a column of an Arrow struct has fewer rows than the struct")
    offset, length = array.offset + before, array.length if length is None else length
    end = offset + length
    # Without rows a buffer may have nothing to read, wherever it is.
    if kind.code == NULL or not length:
        return Column._of(kind, length)
    validity = _buffer(array, 0, (end + 7) // 8, owner) if array.null_count else EMPTY
    if not kind.has_offsets:
        values = _need(array, 1, kind.width * end or (end + 7) // 8, owner, "values")
        return Column._of(kind, length, values, validity=validity, offset=offset)
    texts, offsets = _text_buffers(array, kind, end, owner)
    return Column._of(kind, length, texts, offsets, validity, offset)


def _with_nulls_of(array: Array, one: Column) -> Column:
    """The column of a child, null where its struct is."""
    bitmap = _buffer(array, 0, (array.offset + array.length + 7) // 8, None) if array.null_count else EMPTY
    if not bitmap.length or one._kind.code == NULL:
        return one
    valid = bits_of(bitmap, array.offset, array.length)
    if one._validity.length:
        valid &= bits_of(one._validity, one._offset, one._length)
    validity = buffer_of(bitmap_of(valid << one._offset, one._offset + one._length))
    return Column._of(one._kind, one._length, one._values, one._offsets, validity, one._offset)


def _no_rows(field: Field) -> Column:
    return Column._of(field.kind(), 0)


def _child(field: Field, array: Array, place: int, owner: object) -> Column:
    """A column of a struct, which the owner keeps in memory."""
    return _with_nulls_of(array, _column(field, array.children[place][0], owner, array.offset, array.length))


class Layout:
    """What a schema says: the field of a column, or those of a struct. It stays when the schema is released."""

    def __init__(self, schema: Schema) -> None:
        self.field = Field.of(schema)
        self.is_struct = schema.format == b"+s"
        count = schema.n_children if self.is_struct else 0
        self.children = [Field.of(schema.children[place][0]) for place in range(count)]

    def batch(self, array: Array, owner: object) -> Batch:
        """The column of an array, or those of a struct by name."""
        if not self.is_struct:
            return _column(self.field, array, owner)
        if array.n_children != len(self.children):
            raise ValueError("an Arrow struct has not as many children as its schema")
        if min(array.offset, array.length) < 0:
            raise ValueError("an Arrow array has a length or an offset below 0")
        return self._table(lambda place: _child(self.children[place], array, place, owner), array.length)

    def empty(self) -> Batch:
        """No rows of this schema."""
        if not self.is_struct:
            return _no_rows(self.field)
        return self._table(lambda place: _no_rows(self.children[place]), 0)

    def _table(self, make: Callable[[int], Column], row_count: int) -> Table:
        return table_of((field.name for field in self.children), make, row_count)


class Reader:
    """The batches of an Arrow array or stream. Closing it releases all that was not kept."""

    def __init__(self, values: Any) -> None:
        self.held: list[Held] = []
        self.chunk: Held | None = None
        try:
            self._open(values)
        except BaseException:
            self.close()
            raise

    def _take(self, structure: Any, capsule: object) -> Held:
        held = Held(structure, capsule)
        self.held.append(held)
        return held

    def _open(self, values: Any) -> None:
        self.stream: Held | None = None
        if hasattr(values, "__arrow_c_array__"):
            schema, array = values.__arrow_c_array__()
            self.schema = self._take(Schema(), schema)
            self.chunk = self._take(Array(), array)
            return
        self.stream = self._take(Stream(), values.__arrow_c_stream__())
        self.schema = Held(Schema())
        self._ask(self.stream.structure.get_schema, self.schema.structure)
        self.held.append(self.schema)

    def _ask(self, call: Any, into: Any) -> None:
        assert self.stream is not None
        stream = self.stream.structure
        number = call(byref(stream), byref(into))
        if number:
            said = stream.get_last_error(byref(stream)) if stream.get_last_error else None
            raise StreamFailed(number, said.decode(errors="replace") if said else "the stream does not say why")

    def _chunks(self) -> Iterator[Held]:
        if self.stream is None:
            assert self.chunk is not None
            yield self.chunk
            return
        while True:
            chunk = Held(Array())
            self._ask(self.stream.structure.get_next, chunk.structure)
            if not chunk.structure.release:
                return
            self.held.append(chunk)
            yield chunk

    def batches(self) -> Iterator[Batch]:
        """The batches, at least one. Each lives as its columns do."""
        layout = Layout(self.schema.structure)
        count = 0
        for chunk in self._chunks():
            yield layout.batch(chunk.structure, chunk)
            count += 1
            self.held.remove(chunk)
            # So that it is released before the next one comes, if nobody keeps its columns.
            del chunk
        if not count:
            yield layout.empty()

    def close(self) -> None:
        """Releases what is held, the stream last."""
        while self.held:
            self.held.pop().release()


@contextmanager
def reading(values: Any) -> Iterator[Reader]:
    reader = Reader(values)
    try:
        yield reader
    finally:
        reader.close()


def is_arrow(values: Any) -> bool:
    """Whether the values are another's Arrow data."""
    is_own = isinstance(values, (Column, Table))
    return not is_own and (hasattr(values, "__arrow_c_array__") or hasattr(values, "__arrow_c_stream__"))
