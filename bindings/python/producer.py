# SPDX-License-Identifier: Apache-2.0
"""Arrow data for the tests, laid out and lent by ctypes alone, as the C data interface says. It counts what is not released."""

from __future__ import annotations

import ctypes
import random
from ctypes import CFUNCTYPE, POINTER, c_char_p, c_int, c_int64, c_uint8, c_void_p
from typing import Any

LIVE = {"schemas": 0, "arrays": 0, "streams": 0}
_KEPT: dict[int, Any] = {}


class CSchema(ctypes.Structure):
    pass


class CArray(ctypes.Structure):
    pass


class CStream(ctypes.Structure):
    pass


def _release_of(kind: str, of: Any) -> Any:
    def release(pointer: Any) -> None:
        structure = pointer[0]
        del _KEPT[structure.private_data]
        LIVE[kind] -= 1
        structure.release = type(structure.release)()

    return CFUNCTYPE(None, POINTER(of))(release)


_RELEASE_TYPES = {of: CFUNCTYPE(None, POINTER(of)) for of in (CSchema, CArray, CStream)}
CSchema._fields_ = [
    *[(name, c_char_p) for name in ("format", "name", "metadata")],
    *[(name, c_int64) for name in ("flags", "n_children")],
    ("children", POINTER(POINTER(CSchema))),
    ("dictionary", POINTER(CSchema)),
    ("release", _RELEASE_TYPES[CSchema]),
    ("private_data", c_void_p),
]
CArray._fields_ = [
    *[(name, c_int64) for name in ("length", "null_count", "offset", "n_buffers", "n_children")],
    ("buffers", POINTER(c_void_p)),
    ("children", POINTER(POINTER(CArray))),
    ("dictionary", POINTER(CArray)),
    ("release", _RELEASE_TYPES[CArray]),
    ("private_data", c_void_p),
]
_GetSchema, _GetNext = CFUNCTYPE(c_int, POINTER(CStream), POINTER(CSchema)), CFUNCTYPE(c_int, POINTER(CStream), POINTER(CArray))
_GetError = CFUNCTYPE(c_void_p, POINTER(CStream))
CStream._fields_ = [
    ("get_schema", _GetSchema),
    ("get_next", _GetNext),
    ("get_last_error", _GetError),
    ("release", _RELEASE_TYPES[CStream]),
    ("private_data", c_void_p),
]
_RELEASE = {"schemas": _release_of("schemas", CSchema), "arrays": _release_of("arrays", CArray), "streams": _release_of("streams", CStream)}
_next_key = iter(range(1, 2**62))


def _fill(structure: Any, kind: str, *kept: Any, **fields: Any) -> None:
    """Fills a structure, and keeps what it points to until it is released."""
    for name, value in fields.items():
        setattr(structure, name, value)
    key = next(_next_key)
    structure.private_data, structure.release = key, _RELEASE[kind]
    # A structure that is moved takes nothing with it that ctypes keeps.
    _KEPT[key] = kept, fields
    LIVE[kind] += 1


_new = ctypes.PYFUNCTYPE(ctypes.py_object, c_void_p, c_char_p, c_void_p)(("PyCapsule_New", ctypes.pythonapi))
_pointer = ctypes.PYFUNCTYPE(c_void_p, c_void_p, c_char_p)(("PyCapsule_GetPointer", ctypes.pythonapi))
_STRUCTURES: dict[int, Any] = {}
_NAMES = {CSchema: b"arrow_schema", CArray: b"arrow_array", CStream: b"arrow_array_stream"}


def _destructor_of(of: Any) -> Any:
    def destroy(capsule: int) -> None:
        structure = _STRUCTURES.pop(_pointer(capsule, _NAMES[of]))
        if structure.release:
            structure.release(ctypes.byref(structure))

    return CFUNCTYPE(None, c_void_p)(destroy)


_DESTRUCTORS = {of: _destructor_of(of) for of in _NAMES}


def _capsule(structure: Any) -> Any:
    address = ctypes.addressof(structure)
    _STRUCTURES[address] = structure
    return _new(address, _NAMES[type(structure)], ctypes.cast(_DESTRUCTORS[type(structure)], c_void_p))


class Layout:
    """A column's memory: each buffer of exactly its bytes, with rubbish under nulls and round the rows."""

    def __init__(self, form: str, buffers: list[bytes | None], offset: int, length: int, null_count: int, name: str = "", children: tuple[Layout, ...] = ()):
        self.form, self.buffers, self.offset, self.length, self.null_count = form, buffers, offset, length, null_count
        self.name, self.children = name, children
        self.has_dictionary = False

    def fill_schema(self, schema: Any) -> None:
        children = [CSchema() for _ in self.children]
        for child, layout in zip(children, self.children):
            layout.fill_schema(child)
        pointers = (POINTER(CSchema) * max(1, len(children)))(*map(ctypes.pointer, children))
        index = CSchema(format=b"u") if self.has_dictionary else None
        _fill(
            schema,
            "schemas",
            _Children(children),
            pointers,
            index,
            format=self.form.encode(),
            name=self.name.encode(),
            n_children=len(children),
            children=pointers,
            dictionary=ctypes.pointer(index) if index else None,
        )

    def fill_array(self, array: Any) -> None:
        children = [CArray() for _ in self.children]
        for child, layout in zip(children, self.children):
            layout.fill_array(child)
        held = [None if data is None else (c_uint8 * len(data)).from_buffer_copy(data) for data in self.buffers]
        addresses = (c_void_p * max(1, len(held)))(*[None if part is None else ctypes.addressof(part) for part in held])
        pointers = (POINTER(CArray) * max(1, len(children)))(*map(ctypes.pointer, children))
        _fill(
            array,
            "arrays",
            _Children(children),
            held,
            pointers,
            length=self.length,
            null_count=self.null_count,
            offset=self.offset,
            n_buffers=len(held),
            n_children=len(children),
            buffers=addresses,
            children=pointers,
        )

    def __arrow_c_array__(self, requested_schema: Any = None) -> Any:
        schema, array = CSchema(), CArray()
        self.fill_schema(schema)
        self.fill_array(array)
        return _capsule(schema), _capsule(array)


class _Children:
    """Releases the children with their parent."""

    def __init__(self, children: list[Any]):
        self.children = children

    def __del__(self) -> None:
        for child in self.children:
            if child.release:
                child.release(ctypes.byref(child))


class Chunks:
    """A stream of layouts. It fails at the chunk `fails_at`, if there is such a one; the schema is chunk -1."""

    def __init__(self, schema: Layout, chunks: list[Layout], fails_at: int | None = None):
        self.schema, self.chunks, self.fails_at = schema, chunks, fails_at

    def __arrow_c_stream__(self, requested_schema: Any = None) -> Any:
        stream = CStream()
        rest = iter(enumerate(self.chunks))
        said = ctypes.create_string_buffer(b"the disk is gone")

        def get_schema(_: Any, out: Any) -> int:
            if self.fails_at == -1:
                return 5
            self.schema.fill_schema(out[0])
            return 0

        def get_next(_: Any, out: Any) -> int:
            place, chunk = next(rest, (None, None))
            if chunk is None:
                out[0].release = _RELEASE_TYPES[CArray]()
                return 0
            if place == self.fails_at:
                return 5
            chunk.fill_array(out[0])
            return 0

        calls = _GetSchema(get_schema), _GetNext(get_next), _GetError(lambda _: ctypes.addressof(said))
        _fill(stream, "streams", calls, said, get_schema=calls[0], get_next=calls[1], get_last_error=calls[2])
        return _capsule(stream)


def bitmap(bits: list[bool]) -> bytes:
    return bytes(sum(bit << place for place, bit in enumerate(bits[start : start + 8])) for start in range(0, len(bits), 8))


WIDTHS = {"C": 1, "c": 1, "S": 2, "s": 2, "I": 4, "i": 4, "L": 8, "l": 8}


def layout(source: random.Random, form: str, values: list[Any], name: str = "", width: int = 0) -> Layout:
    """The values, laid out after some rows of rubbish, and before some. `width` is that of items which are given as bytes."""
    before, after = source.choice([0, 0, 1, 3, 7, 8, 9, 13]), source.choice([0, 0, 1, 5])
    length = len(values)
    nulls = values.count(None)
    if form == "n":
        return Layout(form, [], 0, length, length, name)
    valid = [source.random() < 0.5 for _ in range(before)] + [value is not None for value in values] + [source.random() < 0.5 for _ in range(after)]
    validity = bitmap(valid) if nulls or source.random() < 0.3 else None
    total = before + length + after
    if form == "b":
        bits = [bool(source.getrandbits(1)) for _ in range(total)]
        bits[before : before + length] = [bits[before + row] if value is None else value for row, value in enumerate(values)]
        return Layout(form, [validity, bitmap(bits)], before, length, source.choice([nulls, -1]), name)
    if form in WIDTHS or width:
        size = width or WIDTHS[form]
        items = [source.randbytes(size) for _ in range(total)]
        for row, value in enumerate(values):
            if value is not None:
                items[before + row] = value if width else value.to_bytes(size, "little", signed=form.islower())
        return Layout(form, [validity, b"".join(items)], before, length, source.choice([nulls, -1]), name)
    texts = [source.choice([b"", b"rubbish", b"\xc3"]) for _ in range(total)]
    for row, value in enumerate(values):
        if value is not None:
            texts[before + row] = value.encode() if isinstance(value, str) else value
    width = 4 if form in "uz" else 8
    start = source.randrange(4)
    ends = [start]
    for text in texts:
        ends.append(ends[-1] + len(text))
    offsets = b"".join(end.to_bytes(width, "little") for end in ends)
    return Layout(form, [validity, offsets, source.randbytes(start) + b"".join(texts)], before, length, source.choice([nulls, -1]), name)


def struct_of(source: random.Random, children: tuple[Layout, ...], length: int, skipped: int = 0, valid: list[bool] | None = None) -> Layout:
    """A struct of these columns, whose first `skipped` rows are left out."""
    validity = None if valid is None else bitmap([True] * skipped + valid)
    return Layout("+s", [validity], skipped, length, 0 if valid is None else valid.count(False), children=children)
