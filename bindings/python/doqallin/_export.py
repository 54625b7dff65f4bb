# SPDX-License-Identifier: Apache-2.0
# SPDX-FileCopyrightText: Copyright the Vortex contributors; ported to Rattle and changed
"""Arrow's C data interface, as it is written: columns and tables are lent by capsules, without a copy.

Who takes a structure out of its capsule releases it, whenever it likes and on any thread. A capsule that nobody took anything out
of releases its structure when it goes. Until then what the structure points to is kept here.
"""

from __future__ import annotations

import ctypes
import errno
from collections.abc import Mapping, Sequence
from ctypes import CFUNCTYPE, POINTER, byref, c_char_p, c_void_p
from itertools import count
from typing import TYPE_CHECKING, Any

from ._errors import NotAValue, WrongLength
from ._interface import CAPSULES, RELEASES, Array, GetLastError, GetNext, GetSchema, Schema, Stream, format_of
from ._kinds import NULL

if TYPE_CHECKING:
    from ._columns import Column

__all__: list[str] = []

_NULLABLE = 2
# What structures point to, by their private data.
_lent: dict[int | None, Any] = {}
_keys = count(1)
# The structures of capsules, by the addresses of these.
_in_capsules: dict[int, Any] = {}

_new_capsule = ctypes.PYFUNCTYPE(ctypes.py_object, c_void_p, c_char_p, c_void_p)(("PyCapsule_New", ctypes.pythonapi))
# Raises the error that is set, if one is.
_raise_pending = ctypes.PYFUNCTYPE(None)(("PyErr_Occurred", ctypes.pythonapi))


def _for_good(callback: Any) -> Any:
    """A callback that others may call as long as the process lives."""
    ctypes.pythonapi.Py_IncRef(ctypes.py_object(callback))
    return callback


def _releasing(of: type) -> Any:
    """The callback that releases a structure, and those of its children that nobody took out of it.

    A consumer may let go of it while an error is on its way through C. Python cannot run then, and cannot let the error pass: so
    the error is raised here after the work, which makes a message of it.
    """

    def release(pointer: Any) -> None:
        try:
            _raise_pending()
        finally:
            structure = pointer[0]
            for place in range(getattr(structure, "n_children", 0)):
                child = structure.children[place]
                if child[0].release:
                    child[0].release(child)
            structure.release = RELEASES[of]()
            _lent.pop(structure.private_data, None)

    return _for_good(RELEASES[of](release))


_RELEASE = {of: _releasing(of) for of in CAPSULES}


def _lend(structure: Any, *kept: Any) -> None:
    """Keeps what a filled structure points to until it is released. A structure that is moved takes no references with it."""
    structure.private_data = next(_keys)
    _lent[structure.private_data] = kept
    structure.release = _RELEASE[type(structure)]


def _drop(capsule: int) -> None:
    """Releases the structure of a capsule, if nobody took it."""
    try:
        _raise_pending()
    finally:
        structure = _in_capsules.pop(capsule)
        if structure.release:
            structure.release(byref(structure))


_DROP = _for_good(CFUNCTYPE(None, c_void_p)(_drop))


def _capsule(structure: Any) -> object:
    capsule = _new_capsule(ctypes.addressof(structure), CAPSULES[type(structure)], ctypes.cast(_DROP, c_void_p))
    _in_capsules[id(capsule)] = structure
    return capsule


def _name(text: str) -> bytes:
    """A name as it came from a schema, where it ends at its first zero."""
    name = text.encode(errors="surrogateescape")
    if b"\0" in name:
        raise NotAValue(f"the name {text!r} has a zero, at which it would end in Arrow")
    return name


def _pointers(of: Any, children: Sequence[Any]) -> Any:
    return (POINTER(of) * max(1, len(children)))(*map(ctypes.pointer, children))


def _fill_schema(schema: Schema, form: str, name: bytes = b"", children: Sequence[Schema] = ()) -> None:
    pointers, words = _pointers(Schema, children), form.encode()
    schema.format, schema.name, schema.metadata, schema.flags = words, name, None, _NULLABLE
    schema.n_children, schema.children, schema.dictionary = len(children), pointers, None
    _lend(schema, words, name, pointers, children)


def _fill_array(
    array: Array,
    kept: object,
    addresses: Sequence[int | None],
    length: int,
    null_count: int = 0,
    offset: int = 0,
    children: Sequence[Array] = (),
) -> None:
    pointers, buffers = _pointers(Array, children), (c_void_p * max(1, len(addresses)))(*addresses)
    array.length, array.null_count, array.offset = length, null_count, offset
    array.n_buffers, array.buffers = len(addresses), buffers
    array.n_children, array.children, array.dictionary = len(children), pointers, None
    _lend(array, buffers, pointers, children, kept)


def _fill_column(array: Array, one: Column) -> None:
    """Lends a column where it lies. Its nulls are not counted, which the interface allows."""
    if one._kind.code == NULL:
        _fill_array(array, one, (), one._length, one._length, one._offset)
        return
    validity = one._validity.address if one._validity.length else None
    offsets = [one._offsets.address] if one._kind.has_offsets else []
    addresses = [validity, *offsets, one._values.address]
    _fill_array(array, one, addresses, one._length, 0 if validity is None else -1, one._offset)


def schema_of_column(one: Column) -> object:
    """A capsule of the format of a column."""
    schema = Schema()
    capsule = _capsule(schema)
    _fill_schema(schema, format_of(one._kind))
    return capsule


def array_of_column(one: Column) -> object:
    """A capsule of a column."""
    array = Array()
    capsule = _capsule(array)
    _fill_column(array, one)
    return capsule


class _Batches:
    """The columns of a table as a struct, and whether the stream gave it."""

    def __init__(self, columns: Mapping[str, Column], row_count: int) -> None:
        self.names = [_name(name) for name in columns]
        self.columns, self.row_count, self.is_given = list(columns.values()), row_count, False
        if any(len(one) != row_count for one in self.columns):
            raise WrongLength("the columns are not equally long")

    def fill_schema(self, schema: Schema) -> None:
        children = [Schema() for _ in self.columns]
        for child, name, one in zip(children, self.names, self.columns):
            _fill_schema(child, format_of(one._kind), name)
        _fill_schema(schema, "+s", children=children)
        schema.flags = 0

    def fill_next(self, array: Array) -> None:
        if self.is_given:
            array.release = RELEASES[Array]()
            return
        children = [Array() for _ in self.columns]
        for child, one in zip(children, self.columns):
            _fill_column(child, one)
        _fill_array(array, self, [None], self.row_count, children=children)
        self.is_given = True


def _answering(kind: Any, fill: Any) -> Any:
    """The callback of a stream that fills a structure. Nothing can be raised through it: it answers the number of an error."""

    def answer(stream: Any, out: Any) -> int:
        try:
            fill(_lent[stream[0].private_data][0], out[0])
        except BaseException as error:
            return errno.ENOMEM if isinstance(error, MemoryError) else errno.EIO
        return 0

    return _for_good(kind(answer))


_GET_SCHEMA, _GET_NEXT = _answering(GetSchema, _Batches.fill_schema), _answering(GetNext, _Batches.fill_next)
_GET_LAST_ERROR = _for_good(GetLastError(lambda stream: None))


def schema_of_table(columns: Mapping[str, Column]) -> object:
    """A capsule of the formats and the names of columns."""
    schema = Schema()
    capsule = _capsule(schema)
    _Batches(columns, len(next(iter(columns.values()), ()))).fill_schema(schema)
    return capsule


def stream_of_table(columns: Mapping[str, Column], row_count: int) -> object:
    """A capsule of a stream of one batch."""
    stream = Stream()
    capsule = _capsule(stream)
    stream.get_schema, stream.get_next, stream.get_last_error = _GET_SCHEMA, _GET_NEXT, _GET_LAST_ERROR
    _lend(stream, _Batches(columns, row_count))
    return capsule
