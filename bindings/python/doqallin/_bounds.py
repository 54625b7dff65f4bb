# SPDX-License-Identifier: Apache-2.0
# SPDX-FileCopyrightText: Copyright the Vortex contributors; ported to Rattle and changed
"""Bounds of values. Those of columns, and pruning by these, are deprecated: they know of no nulls.

Statistics of a column and filters say the same and more: `statistics` counts nulls apart, and `Filter.prune` asks zones.
"""

from __future__ import annotations

import ctypes
from array import array
from collections.abc import Iterable
from ctypes import byref, c_bool, c_size_t, c_uint64
from dataclasses import dataclass
from typing import Any, Generic, TypeVar

from . import _library
from ._errors import BadOffsets
from ._library import NONE, BoundLengths, check, encoded, new_buffer, size

__all__ = [
    "ZoneBounds",
    "column_bounds",
    "column_bounds_text",
    "lower_bound",
    "lower_bound_text",
    "upper_bound",
    "upper_bound_text",
]


def _frozen(value: bytes | bytearray | memoryview) -> bytes:
    """The bytes, copied unless they can never change: the call runs without the interpreter's lock."""
    if not isinstance(value, (bytes, bytearray, memoryview)):
        raise TypeError(f"bytes are wanted, not {type(value).__name__}")
    return bytes(value)


def lower_bound(value: bytes | bytearray | memoryview, n: int) -> bytes:
    """The greatest bytes of at most n bytes that are not above the value: its first n bytes, or all of fewer.

    >>> lower_bound(b"apple", 3)
    b'app'
    """
    value = _frozen(value)
    return value[: _library.lower_bytes(value, len(value), size(n))]


def lower_bound_text(value: str, n: int) -> str:
    """The longest beginning of whole characters that has at most n bytes in UTF-8.

    >>> lower_bound_text("añb", 2)
    'a'
    """
    text = encoded(value)
    count = c_size_t()
    check(_library.lower_text(text, len(text), size(n), byref(count)))
    return text[: count.value].decode()


def _upper(call: Any, value: bytes, n: int) -> bytes | None:
    n = size(n)
    needed = min(n, len(value))
    buffer = new_buffer(needed)
    count = c_size_t()
    status = call(value, len(value), n, buffer, needed, byref(count))
    if status == NONE:
        return None
    check(status)
    return ctypes.string_at(buffer, count.value)


def upper_bound(value: bytes | bytearray | memoryview, n: int) -> bytes | None:
    """The value if it has at most n bytes, and else the least n bytes above it; None if its first n are all 255.

    >>> upper_bound(b"apple", 3)
    b'apq'
    """
    return _upper(_library.upper_bytes, _frozen(value), n)


def upper_bound_text(value: str, n: int) -> str | None:
    """The value if it has at most n bytes in UTF-8, and else the least string above it of as many bytes as its lower bound.

    None if the lower bound is empty, or if the code point after its last character is no character of as many bytes.

    >>> upper_bound_text("añb", 3)
    'aò'
    """
    bound = _upper(_library.upper_text, encoded(value), n)
    return None if bound is None else bound.decode()


T = TypeVar("T", bytes, str)


@dataclass(frozen=True)
class ZoneBounds(Generic[T]):
    """The bounds of a zone of strings or of bytes: a value below the lower or above the upper one is not in the zone.

    `upper` is None if there is no upper bound. Deprecated, since a null has no place in them: `Statistics` have the bounds of a
    column, and `Filter.may_match` and `Filter.prune` ask them.
    """

    lower: T
    upper: T | None

    @classmethod
    def of(cls, least: T, greatest: T, n: int) -> ZoneBounds[T]:
        """The bounds at n bytes of a zone whose values lie from least to greatest. These are not compared."""
        if isinstance(least, str) and isinstance(greatest, str):
            return cls(lower_bound_text(least, n), upper_bound_text(greatest, n))
        return cls(lower_bound(least, n), upper_bound(greatest, n))

    def may_contain(self, value: T) -> bool:
        """Whether the zone may hold the value. Deprecated: `Filter.may_match` asks statistics, for any test and any kind."""
        has_upper = self.upper is not None
        if isinstance(self.lower, str):
            lower, upper, sought = encoded(self.lower), encoded(self.upper or ""), encoded(value)
            answer = c_bool()
            status = _library.may_contain_text(lower, len(lower), upper, len(upper), has_upper, sought, len(sought), byref(answer))
            check(status)
            return answer.value
        lower, upper, sought = _frozen(self.lower), _frozen(self.upper or b""), _frozen(value)
        return bool(_library.may_contain_bytes(lower, len(lower), upper, len(upper), has_upper, sought, len(sought)))


def _offsets(offsets: Iterable[int]) -> ctypes.Array[c_uint64]:
    """The offsets in memory of their own."""
    # An array takes bytes for its own memory, and not for numbers.
    numbers = iter(offsets) if isinstance(offsets, (bytes, bytearray)) else offsets
    try:
        copied = array("Q", numbers)
    except OverflowError:
        raise BadOffsets("an offset is below 0, or past the end of the bytes") from None
    # The memory of an array without items need not be aligned.
    return (c_uint64 * len(copied)).from_buffer(copied) if copied else (c_uint64 * 0)()


def _column(call: Any, data: bytes, offsets: Iterable[int], n: int) -> tuple[bytes, bytes | None] | None:
    n = size(n)
    places = _offsets(offsets)
    needed = min(n, len(data))
    lower, upper, lengths = new_buffer(needed), new_buffer(needed), BoundLengths()
    status = call(data, len(data), places, len(places), n, lower, needed, upper, needed, byref(lengths))
    if status == NONE:
        return None
    check(status)
    upper_bytes = ctypes.string_at(upper, lengths.upper) if lengths.has_upper else None
    return ctypes.string_at(lower, lengths.lower), upper_bytes


def column_bounds(data: bytes | bytearray | memoryview, offsets: Iterable[int], n: int) -> ZoneBounds[bytes] | None:
    """The bounds at n bytes of a column of bytes, from its least value to its greatest one; None if it has no values.

    Deprecated, since it counts a null as empty bytes: `statistics(values, "binary", max_bytes=n)` has the bounds, and counts
    the nulls. Value k is data[offsets[k]:offsets[k + 1]], so that m values have m + 1 offsets. An array("Q") of them is copied
    fastest.

    >>> column_bounds(b"pearapplefig", [0, 4, 9, 12], 2)
    ZoneBounds(lower=b'ap', upper=b'pf')
    """
    bounds = _column(_library.column_bytes, _frozen(data), offsets, n)
    return None if bounds is None else ZoneBounds(*bounds)


def column_bounds_text(data: str | bytes | bytearray | memoryview, offsets: Iterable[int], n: int) -> ZoneBounds[str] | None:
    """The bounds at n bytes of a column of strings, by whole characters; None if it has no values. Offsets count bytes.

    Deprecated, since it counts a null as an empty string: `statistics(values, max_bytes=n)` has the bounds, and counts the nulls.
    Raises NotUtf8 if the least or the greatest value is not UTF-8.
    """
    text = encoded(data) if isinstance(data, str) else _frozen(data)
    bounds = _column(_library.column_text, text, offsets, n)
    if bounds is None:
        return None
    lower, upper = bounds
    return ZoneBounds(lower.decode(), None if upper is None else upper.decode())
