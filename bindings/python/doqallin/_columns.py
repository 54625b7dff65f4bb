# SPDX-License-Identifier: Apache-2.0
# SPDX-FileCopyrightText: Copyright the Vortex contributors; ported to Rattle and changed
"""Columns as Arrow lays them out, and columns of lists and of buffers."""

from __future__ import annotations

import ctypes
import sys
from array import array
from collections.abc import Iterable, Iterator, Sequence
from itertools import accumulate, pairwise
from operator import le
from typing import Any, NamedTuple, overload

from ._errors import BadOffsets, KindsDiffer, NotANumber, NotAValue, NotUtf8, UnknownKind, at
from ._export import array_of_column, schema_of_column
from ._kinds import BINARY, BOOL, F32, F64, I64, ITEMS, LARGE_BINARY, LARGE_UTF8, NULL, TYPECODES, U64, UTF8, WIDTHS, ColumnKind, kind_of
from ._library import ColumnBuffers, RawColumn, encoded, new_buffer, new_offsets
from ._numpy import array_of
from ._types import DType
from ._values import items_of, logical_kind_of, takes, values_of

__all__ = ["Column"]


class Buffer(NamedTuple):
    """Bytes at an address, and what keeps them there. Offsets that the library has written are right, and need no test."""

    address: int
    length: int
    owner: object
    is_right: bool = False


_NOTHING = (ctypes.c_uint64 * 1)()
EMPTY = Buffer(ctypes.addressof(_NOTHING), 0, _NOTHING)


def buffer_of(data: bytes | array[int]) -> Buffer:
    """The bytes of what will not change."""
    if isinstance(data, array):
        address, items = data.buffer_info()
        return Buffer(address, items * data.itemsize, data) if items else EMPTY
    address = ctypes.cast(ctypes.c_char_p(data), ctypes.c_void_p).value or EMPTY.address
    return Buffer(address, len(data), data)


def bits_of(buffer: Buffer, offset: int, length: int) -> int:
    """Bits of a bitmap as a number, the first the least."""
    first, last = offset // 8, (offset + length + 7) // 8
    number = int.from_bytes(ctypes.string_at(buffer.address + first, last - first), "little")
    return number >> (offset - 8 * first) & ((1 << length) - 1)


def bitmap_of(bits: int, length: int) -> bytes:
    return bits.to_bytes((length + 7) // 8, "little")


def _bits(truths: Iterable[bool]) -> int:
    return int("0" + "".join("1" if truth else "0" for truth in truths)[::-1], 2)


def _decoded(text: bytes, row: int) -> str:
    try:
        return text.decode()
    except UnicodeDecodeError:
        raise at(NotUtf8(f"row {row} is not UTF-8"), row) from None


class Column(Sequence[Any]):
    """A column: values of one kind or None, as Arrow lays them out.

    `column` makes one, and some calls answer one. It is a sequence, and a slice of it shares its memory. It is Arrow data itself,
    so readers of Arrow data take it uncopied; `buffers` lends the memory to what knows no Arrow. Floats, decimals, dates, times and timestamps are those of Python; of two columns all NaNs are equal.

    >>> numbers = column([3, None, 5])
    >>> numbers, numbers[0], list(numbers[1:]), numbers.null_count
    (Column('i64', [3, None, 5]), 3, [None, 5], 1)
    """

    __slots__ = ("_kind", "_offset", "_length", "_validity", "_values", "_offsets")
    _kind: ColumnKind
    _offset: int
    _length: int
    _validity: Buffer
    _values: Buffer
    _offsets: Buffer

    def __init__(self) -> None:
        raise TypeError("doqallin.column makes columns")

    @classmethod
    def _of(
        cls, kind: ColumnKind, length: int, values: Buffer = EMPTY, offsets: Buffer = EMPTY, validity: Buffer = EMPTY, offset: int = 0
    ) -> Column:
        made = object.__new__(cls)
        made._kind, made._length, made._offset = kind, length, offset
        made._values, made._offsets, made._validity = values, offsets, validity
        return made

    def _raw(self) -> RawColumn:
        validity, values, offsets = self._validity, self._values, self._offsets
        return RawColumn(
            *self._kind,
            validity.address,
            validity.length,
            values.address,
            values.length,
            offsets.address,
            offsets.length,
            self._offset,
            self._length,
        )

    @property
    def kind(self) -> str:
        """`i64`, `utf8`, `decimal(10,2)` and so on."""
        return str(self._kind)

    @property
    def null_count(self) -> int:
        """How many rows are None."""
        if self._kind.code == NULL:
            return self._length
        return self._length - bits_of(self._validity, self._offset, self._length).bit_count() if self._validity.length else 0

    @property
    def offset(self) -> int:
        """How many rows of the buffers are before the first row."""
        return self._offset

    def buffers(self) -> tuple[memoryview | None, memoryview | None, memoryview | None]:
        """The memory: the validity bitmap, the offsets and the values, each None if there is none. They live as the column does.

        `numpy.frombuffer` takes the values.
        """

        def lent(buffer: Buffer) -> memoryview | None:
            if not buffer.length:
                return None
            view = (ctypes.c_char * buffer.length).from_address(buffer.address)
            view._owner = buffer.owner  # type: ignore[attr-defined]
            return memoryview(view).cast("B").toreadonly()

        return lent(self._validity), lent(self._offsets), lent(self._values)

    def __arrow_c_schema__(self) -> object:
        """The column's format, in a capsule of Arrow's C data interface."""
        return schema_of_column(self)

    def __arrow_c_array__(self, requested_schema: object = None) -> tuple[object, object]:
        """The column's format and its memory, uncopied, in capsules of Arrow's C data interface.

        The format is the column's own, whatever is requested. A zone is UTC, since timestamps with a zone count in it.
        """
        return schema_of_column(self), array_of_column(self)

    def __array__(self, dtype: Any = None, copy: bool | None = None) -> Any:
        """The values as an array of numpy: numbers without nulls uncopied, truths without nulls, and others as objects.

        So `array[mask]` and `array[sort_rows([array])]` take columns as they are.
        """
        made = array_of(self)
        return made.astype(made.dtype if dtype is None else dtype, copy=bool(copy))

    def __reduce__(self) -> tuple[Any, ...]:
        """A copy or a pickle has the memory of its own rows."""
        one = joined([self, self[:0]])
        return _of_bytes, (one._kind, one._length, *(ctypes.string_at(*part[:2]) for part in (one._values, one._offsets, one._validity)))

    def __len__(self) -> int:
        return self._length

    def _is_valid(self, row: int) -> bool:
        if self._kind.code == NULL or not self._validity.length:
            return self._kind.code != NULL
        return self._bit(self._validity, row)

    def _bit(self, bitmap: Buffer, row: int) -> bool:
        place = self._offset + row
        return bool(ctypes.c_uint8.from_address(bitmap.address + place // 8).value >> place % 8 & 1)

    def _ends(self, row: int, count: int) -> list[int]:
        """The offsets of so many rows from this one on, and the end of the last. No rows need no offsets."""
        item = ctypes.c_uint32 if self._kind.code in (UTF8, BINARY) else ctypes.c_uint64
        start = self._offsets.address + ctypes.sizeof(item) * (self._offset + row)
        return list((item * (count + 1)).from_address(start)) if self._length else [0]

    def _text(self, row: int) -> bytes:
        start, end = self._ends(row, 1)
        if not start <= end <= self._values.length:
            raise at(BadOffsets(f"the offsets of row {row} go down, or past the end of the bytes"), row)
        return ctypes.string_at(self._values.address + start, end - start)

    def _test(self, ends: list[int]) -> None:
        """Raises BadOffsets if an offset goes down, or past the end of the bytes."""
        if not self._offsets.is_right and (not all(map(le, ends, ends[1:])) or ends[-1] > self._values.length):
            for row in range(self._length):
                self._text(row)

    def _texts(self) -> tuple[bytes, list[int]]:
        """The bytes of all rows, and where each begins in them and the last ends."""
        ends = self._ends(0, self._length)
        self._test(ends)
        first = ends[0]
        return ctypes.string_at(self._values.address + first, ends[-1] - first), [end - first for end in ends]

    def _items(self) -> list[Any]:
        """The items of all rows, as they are stored."""
        width = self._kind.width
        start = self._values.address + width * self._offset
        if self._kind.code in ITEMS:
            return list((ITEMS[self._kind.code] * self._length).from_address(start))
        data = ctypes.string_at(start, width * self._length)
        return [int.from_bytes(data[place : place + width], "little", signed=True) for place in range(0, len(data), width)]

    def _value(self, row: int) -> Any:
        if not self._is_valid(row):
            return None
        code = self._kind.code
        if code < BOOL:
            return ITEMS[code].from_address(self._values.address + WIDTHS[code] * (self._offset + row)).value
        if code == BOOL:
            return self._bit(self._values, row)
        if code > NULL:
            return values_of(self._kind, self[row : row + 1]._items(), row)[0]
        text = self._text(row)
        return _decoded(text, row) if code in (UTF8, LARGE_UTF8) else text

    @overload
    def __getitem__(self, place: int) -> Any: ...

    @overload
    def __getitem__(self, place: slice) -> Column: ...

    def __getitem__(self, place: int | slice) -> Any:
        if isinstance(place, slice):
            start, stop, step = place.indices(self._length)
            if step != 1:
                raise ValueError("a slice of a column has no step")
            return Column._of(self._kind, max(0, stop - start), self._values, self._offsets, self._validity, self._offset + start)
        row = place + self._length if place < 0 else place
        if not 0 <= row < self._length:
            raise IndexError(place)
        return self._value(row)

    def __iter__(self) -> Iterator[Any]:
        return iter(self.to_list())

    def to_list(self) -> list[Any]:
        """The values, with None for a null.

        Raises NotAValue at a value that Python does not have, as a time with nanoseconds. `buffers` has each.
        """
        if self._kind.code == NULL or not self._length:
            return [None] * self._length
        found: list[Any]
        if self._kind.code == BOOL:
            found = [self._bit(self._values, row) for row in range(self._length)]
        elif self._kind.has_offsets:
            data, ends = self._texts()
            found = [data[start:end] for start, end in pairwise(ends)]
        else:
            found = self._items()
        if self.null_count:
            found = [value if self._is_valid(row) else None for row, value in enumerate(found)]
        if self._kind.is_text:
            return [None if text is None else _decoded(text, row) for row, text in enumerate(found)]
        return values_of(self._kind, found) if self._kind.is_logical else found

    def __eq__(self, other: object) -> bool:
        if not isinstance(other, Column):
            return NotImplemented
        if self.kind != other.kind or len(self) != len(other):
            return False
        both = zip(self.to_list(), other.to_list())
        return all(one == two or (one != one and two != two) for one, two in both)

    __hash__ = None  # type: ignore[assignment]

    def __repr__(self) -> str:
        count = self._length if self._length <= 12 else 10
        shown = [_shown(self, row) for row in range(count)] + ["..."] * (count < self._length)
        return f"Column({self.kind!r}, [{', '.join(shown)}])"


def _of_bytes(kind: ColumnKind, length: int, values: bytes, offsets: bytes, validity: bytes) -> Column:
    return Column._of(kind, length, buffer_of(values), buffer_of(offsets), buffer_of(validity))


def _shown(values: Sequence[Any], row: int) -> str:
    """A value as `repr` has it, and one that Python does not have as the number that stores it."""
    try:
        return repr(values[row])
    except NotAValue as error:
        return f"<{error.item}>"


def _kind_of(values: Sequence[Any], types: set[type]) -> ColumnKind:
    """The kind of a list's values."""
    if not types:
        return ColumnKind(NULL)
    if types == {bool}:
        return ColumnKind(BOOL)
    if types == {str}:
        return ColumnKind(LARGE_UTF8)
    if types <= _BYTES:
        return ColumnKind(LARGE_BINARY)
    if _are_integers(types):
        greatest = max(value for value in values if value is not None)
        return U64 if greatest >= 2**63 else I64
    kind = logical_kind_of(values, types)
    if kind is None:
        names = sorted(of.__name__ for of in types)
        raise UnknownKind(f"a list of {' and '.join(names)} is no column" + _INSTEAD.get(names[0], ""))
    return kind


_BYTES: set[type] = {bytes, bytearray, memoryview}
_INSTEAD = {"timedelta": ": durations are not taken, and integers are", "Timestamp": ": give the Series"}


def _are_integers(types: set[type]) -> bool:
    return all(hasattr(of, "__index__") for of in types) and bool not in types


def _fits(kind: ColumnKind, types: set[type]) -> bool:
    if kind.is_integer:
        return _are_integers(types)
    if kind.is_logical:
        return takes(kind, types)
    allowed: dict[int, set[type]] = {BOOL: {bool}, NULL: set(), UTF8: {str}, LARGE_UTF8: {str}}
    return types <= allowed.get(kind.code, _BYTES)


def _integers(kind: ColumnKind, values: Sequence[Any]) -> Buffer:
    try:
        return buffer_of(array(TYPECODES[kind.code], [0 if value is None else value for value in values]))
    except OverflowError:
        raise NotANumber(f"{kind} does not have each number of the list") from None


def of_list(values: Sequence[Any], of: str | DType | None) -> Column:
    """A column of a list's values, copied. Without a kind it is found by the values."""
    types = set(map(type, values))
    has_nulls = type(None) in types
    types.discard(type(None))
    kind = _kind_of(values, types) if of is None else kind_of(of)
    if not _fits(kind, types):
        raise KindsDiffer(f"{kind} has no value of {' or '.join(sorted(of.__name__ for of in types))}")
    length = len(values)
    validity = EMPTY
    if has_nulls and kind.code != NULL:
        validity = buffer_of(bitmap_of(_bits(value is not None for value in values), length))
    if kind.is_integer:
        return Column._of(kind, length, _integers(kind, values), validity=validity)
    if kind.is_logical:
        return Column._of(kind, length, buffer_of(items_of(kind, values)), validity=validity)
    if kind.code == BOOL:
        return Column._of(kind, length, buffer_of(bitmap_of(_bits(map(bool, values)), length)), validity=validity)
    if kind.code == NULL:
        return Column._of(kind, length)
    texts = [b"" if value is None else encoded(value) if kind.is_text else bytes(value) for value in values]
    return of_texts(kind.large, texts, validity)


def of_texts(kind: ColumnKind, texts: Sequence[bytes], validity: Buffer = EMPTY) -> Column:
    offsets = array("q", accumulate(map(len, texts), initial=0))
    return Column._of(kind, len(texts), buffer_of(b"".join(texts)), buffer_of(offsets), validity)


class Room:
    """Buffers for a column of so many rows at most, whose strings have at most so many bytes together."""

    def __init__(self, kind: ColumnKind, rows: int, most: int) -> None:
        self._kind = kind
        bitmap = (rows + 7) // 8
        size = most if kind.has_offsets else bitmap if kind.code == BOOL else kind.width * rows
        self._validity, self._values = new_buffer(bitmap), new_buffer(size)
        self._offsets = new_offsets(rows + 1 if kind.has_offsets else 0)

    def raw(self) -> ColumnBuffers:
        """Where the library writes the column."""
        buffers: list[ctypes.Array[Any]] = [self._validity, self._values, self._offsets]
        each = ((ctypes.addressof(buffer), len(buffer)) for buffer in buffers)
        return ColumnBuffers(*(part for pair in each for part in pair), 0)

    def _written(self, rows: int, count: int) -> list[tuple[ctypes.Array[Any], int]]:
        """The validity, the values and the offsets, and how many bytes of each were written."""
        return [(self._validity, (rows + 7) // 8), (self._values, count), (self._offsets, 8 * (rows + 1) if self._kind.has_offsets else 0)]

    def column(self, rows: int, count: int) -> Column:
        """The column of so many rows that was written, with so many bytes of values, where it lies."""
        if self._kind.code == NULL:
            return Column._of(self._kind, rows)
        written = self._written(rows, count)
        validity, values, offsets = (Buffer(ctypes.addressof(part), length, part, True) if length else EMPTY for part, length in written)
        return Column._of(self._kind, rows, values, offsets, validity)

    def copied(self, rows: int, count: int) -> Column:
        """The same in memory of its own, as long as it is. Without nulls it has no bitmap of them."""
        validity, values, offsets = (buffer_of(ctypes.string_at(part, length))._replace(is_right=True) for part, length in self._written(rows, count))
        made = Column._of(self._kind, rows, values, offsets, validity)
        return made if made.null_count else Column._of(self._kind, rows, values, offsets)


class _PyBuffer(ctypes.Structure):
    """Python's Py_buffer, as far as its first field matters."""

    _fields_ = [
        ("buf", ctypes.c_void_p),
        ("obj", ctypes.c_void_p),
        ("len", ctypes.c_ssize_t),
        ("itemsize", ctypes.c_ssize_t),
        ("readonly", ctypes.c_int),
        ("ndim", ctypes.c_int),
        ("rest", ctypes.c_void_p * 5),
    ]


def _address_of(view: memoryview) -> int:
    """Where the bytes of a contiguous view are. The view keeps them there."""
    told = _PyBuffer()
    ctypes.pythonapi.PyObject_GetBuffer(ctypes.py_object(view), ctypes.byref(told), 0)
    address = told.buf or EMPTY.address
    ctypes.pythonapi.PyBuffer_Release(ctypes.byref(told))
    return address


_INTEGER_LETTERS = ("b", "B", "h", "H", "i", "I", "l", "L", "q", "Q", "n", "N")


def _kind_of_items(view: memoryview) -> ColumnKind:
    """The kind of a buffer's items."""
    order, letter = (view.format[0], view.format[1:]) if view.format[0] in "@=<>!" else ("@", view.format)
    if letter in ("e", "g"):
        raise UnknownKind(f"{'float16' if letter == 'e' else 'a long double'} is not taken: cast it to float{32 if letter == 'e' else 64}")
    if letter not in (*_INTEGER_LETTERS, "f", "d"):
        raise UnknownKind(f"a buffer of items of the format {view.format!r} is no column")
    if view.itemsize > 1 and order in ((">", "!") if sys.byteorder == "little" else ("<",)):
        raise UnknownKind("the items of the buffer have their bytes in another order")
    if letter in ("f", "d"):
        return ColumnKind(F32 if letter == "f" else F64)
    return ColumnKind({1: 0, 2: 1, 4: 2, 8: 3}[view.itemsize] + (0 if letter.isupper() else 4))


def of_view(view: memoryview) -> Column:
    """A column of a buffer's integers or floats, where they lie if they lie one behind another."""
    if view.ndim != 1:
        raise UnknownKind(f"a buffer of {view.ndim} dimensions is no column")
    if view.format.lstrip("@=<>!") == "?":
        return of_list([bool(byte) for byte in view.tobytes()], "bool")
    kind = _kind_of_items(view)
    if not view.c_contiguous:
        return Column._of(kind, len(view), buffer_of(view.tobytes()))
    return Column._of(kind, len(view), Buffer(_address_of(view), view.nbytes, view) if view.nbytes else EMPTY)


def _moved(offsets: bytes, by: int) -> bytes:
    """Offsets of 64 bits, each so much greater. As one number they are moved at once, since none passes its 64 bits."""
    moves = int.from_bytes(abs(by).to_bytes(8, "little") * (len(offsets) // 8), "little")
    number = int.from_bytes(offsets, "little")
    return (number + moves if by >= 0 else number - moves).to_bytes(len(offsets), "little")


def _offsets_of(one: Column) -> bytes:
    """The offsets of a column's rows, of 64 bits each. Those that are right are not looked at one by one."""
    if one._length and one._offsets.is_right and one._kind == one._kind.large:
        return ctypes.string_at(one._offsets.address + 8 * one._offset, 8 * (one._length + 1))
    ends = one._ends(0, one._length)
    one._test(ends)
    return array("Q", ends).tobytes()


def _joined_texts(columns: Sequence[Column]) -> tuple[Buffer, Buffer]:
    """The bytes and the offsets of columns one behind another."""
    places, texts, end = [bytes(8)], [], 0
    for one in columns:
        ends = _offsets_of(one)
        first, last = (int.from_bytes(offset, "little") for offset in (ends[:8], ends[-8:]))
        places.append(_moved(ends, end - first)[8:])
        texts.append(ctypes.string_at(one._values.address + first, last - first))
        end += last - first
    return buffer_of(b"".join(texts)), buffer_of(b"".join(places))._replace(is_right=True)


def _joined_bits(columns: Sequence[Column], bits: Iterable[int]) -> Buffer:
    """Bits one behind another. What does not fill a byte goes on with the next ones."""
    whole, rest, number = [], 0, 0
    for one, part in zip(columns, bits):
        number |= part << rest
        count, rest = divmod(rest + one._length, 8)
        whole.append(bitmap_of(number & ((1 << 8 * count) - 1), 8 * count))
        number >>= 8 * count
    return buffer_of(b"".join([*whole, bitmap_of(number, rest)]))


def joined(columns: Sequence[Column]) -> Column:
    """Columns of one kind, one behind another. One alone stays where it is; more are copied."""
    if len(columns) == 1:
        return columns[0]
    kind = columns[0]._kind
    length = sum(one._length for one in columns)
    validity = EMPTY
    if kind.code != NULL and any(one._validity.length for one in columns):
        whole = lambda one: bits_of(one._validity, one._offset, one._length) if one._validity.length else (1 << one._length) - 1
        validity = _joined_bits(columns, map(whole, columns))
    if kind.code == NULL:
        return Column._of(kind, length)
    if kind.code == BOOL:
        values = _joined_bits(columns, (bits_of(one._values, one._offset, one._length) for one in columns))
        return Column._of(kind, length, values, validity=validity)
    if kind.width:
        parts = [ctypes.string_at(one._values.address + kind.width * one._offset, kind.width * one._length) for one in columns]
        return Column._of(kind, length, buffer_of(b"".join(parts)), validity=validity)
    values, offsets = _joined_texts(columns)
    return Column._of(kind.large, length, values, offsets, validity)


def nulls(kind: ColumnKind, length: int) -> Column:
    """A column of nulls alone, of any kind."""
    if kind.code == NULL:
        return Column._of(kind, length)
    validity = buffer_of(bytes((length + 7) // 8))
    if not kind.has_offsets:
        return Column._of(kind, length, buffer_of(bytes(max(8, kind.width) * length)), validity=validity)
    return Column._of(kind, length, EMPTY, buffer_of(bytes(8 * (length + 1))), validity)


def fitted(one: Column, of: str | DType | None) -> Column:
    """The column, if it is of the kind that is asked for. Nulls alone are of any."""
    if of is None or one._kind.general == kind_of(of).general:
        return one
    if one._kind.code == NULL:
        return nulls(kind_of(of), len(one))
    raise KindsDiffer(f"the column is of {one.kind}, not of {of}")
