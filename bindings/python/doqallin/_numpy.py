# SPDX-License-Identifier: Apache-2.0
# SPDX-FileCopyrightText: Copyright the Vortex contributors; ported to Rattle and changed
"""Columns as arrays of numpy, which is loaded by who asks for them."""

from __future__ import annotations

import sys
from typing import TYPE_CHECKING, Any

from ._kinds import BOOL, F32, F64, ITEMS

if TYPE_CHECKING:
    from ._columns import Column

__all__: list[str] = []


def is_plain(one: Column) -> bool:
    """Whether the column is of numbers, without nulls."""
    return not one.null_count and (one._kind.code < BOOL or one._kind.code in (F32, F64))


def array_of(one: Column) -> Any:
    """Numbers without nulls as they lie there, and truths without nulls. Others are an array of objects."""
    numpy: Any = sys.modules["numpy"]
    code, values = one._kind.code, one.buffers()[2] or b""
    if is_plain(one):
        return numpy.frombuffer(values, ITEMS[code])[one._offset :][: len(one)]
    if not one.null_count and code == BOOL:
        first, last = one._offset // 8, (one._offset + len(one) + 7) // 8
        bits = numpy.unpackbits(numpy.frombuffer(values, "u1")[first:last], bitorder="little")
        return bits[one._offset % 8 :][: len(one)].view(bool)
    objects = numpy.empty(len(one), object)
    objects[:] = one.to_list()
    return objects
