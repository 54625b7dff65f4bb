# SPDX-License-Identifier: Apache-2.0
# SPDX-FileCopyrightText: Copyright the Vortex contributors; ported to Rattle and changed
"""The order of rows, by their keys."""

from __future__ import annotations

import sys
from array import array
from collections.abc import Sequence
from typing import Any

from ._columns import Column, buffer_of, of_view
from ._keys import row_keys
from ._kinds import I64

__all__ = ["sort_rows"]

# After so many bytes words are left for whole keys.
_MOST_BYTES = 64


def sort_rows(table: Any, *, descending: bool | Sequence[bool] = False, nulls_first: bool | Sequence[bool] = True) -> Column:
    """The rows in their order: a column of their places. Rows that are equal stay in the order that they have.

    It takes what `row_keys` takes, and sorts by these keys. It is several times as quick where numpy is loaded. An array of
    numpy takes the answer between its brackets, and a DataFrame by `iloc`.

    >>> cities, fares = ["b", "a", "a"], [1, 2, None]
    >>> sort_rows([cities, fares])
    Column('i64', [2, 1, 0])
    >>> order = sort_rows([cities, fares], descending=[True, False], nulls_first=False)
    >>> [(cities[row], fares[row]) for row in order]
    [('b', 1), ('a', 2), ('a', None)]
    """
    keys = row_keys(table, descending=descending, nulls_first=nulls_first)
    numpy = sys.modules.get("numpy")
    return _by_whole_keys(keys) if numpy is None else of_view(memoryview(_by_words(numpy, keys)))


def _by_whole_keys(keys: Column) -> Column:
    whole = keys.to_list()
    places = array("q", sorted(range(len(whole)), key=whole.__getitem__))
    return Column._of(I64, len(whole), buffer_of(places))


def _reading_words(numpy: Any, keys: Column) -> Any:
    """How to read the eight bytes at each of some places, up to these ends: as numbers that sort as they do."""
    data = numpy.zeros(keys._values.length + 8, "u1")
    data[:-8] = numpy.frombuffer(keys.buffers()[2] or b"", "u1")
    words = numpy.ndarray(keys._values.length + 1, ">u8", data, strides=(1,))
    of_key = numpy.array([2**64 - 2 ** (64 - 8 * count) for count in range(9)], "u8")
    return lambda places, ends: words[places].astype("u8") & of_key[numpy.minimum(ends - places, 8)]


def _shared_bytes(numpy: Any, words_at: Any, starts: Any, ends: Any) -> int:
    """With how many bytes all keys begin, as far as that is looked for."""
    shortest = int(numpy.min(ends - starts, initial=_MOST_BYTES)) if len(starts) else 0
    depth, differing = 0, 0
    while depth < shortest and not differing:
        words = words_at(starts + depth, ends)
        differing = int(numpy.bitwise_or.reduce(words ^ words[0]))
        depth += 8 - (differing.bit_length() + 7) // 8
    return min(depth, shortest)


def _by_words(numpy: Any, keys: Column) -> Any:
    """The order by words of the keys, from the first on. Each further word sorts those rows that are equal until there.

    No key begins another, so what follows the end of a key in a word does not matter, and is 0.
    """
    offsets = numpy.frombuffer(keys.buffers()[1], "i8")
    starts, ends, words_at = offsets[:-1], offsets[1:], _reading_words(numpy, keys)
    order = numpy.arange(len(keys))
    # Where rows are in the order that are equal to a neighbour, and the numbers of their groups, which go up.
    places, groups = order.copy(), numpy.zeros(len(keys), "u8")
    depth = shared = _shared_bytes(numpy, words_at, starts, ends)
    while len(places) and depth < shared + _MOST_BYTES:
        rows = order[places]
        # Behind the number of the group a word has so many bytes of the key.
        taken = 8 - (int(groups[-1]).bit_length() + 7) // 8
        words = words_at(starts[rows] + depth, ends[rows])
        if taken < 8:
            words = groups << numpy.uint64(8 * taken) | words >> numpy.uint64(64 - 8 * taken)
        by = words.argsort(kind="stable")
        order[places], words, depth = rows[by], words[by], depth + taken
        places, groups = _equal_neighbours(numpy, places, words)
        rows = order[places]
        goes_on = ends[rows] - starts[rows] > depth
        places, groups = places[goes_on], groups[goes_on]
    if len(places):
        order[places] = _by_rest(keys, groups.tolist(), order[places].tolist())
    return order


def _equal_neighbours(numpy: Any, places: Any, words: Any) -> tuple[Any, Any]:
    """The places whose words are equal to a neighbour's, and numbers of these words."""
    differ = words[1:] != words[:-1]
    numbers = numpy.zeros(len(words), "u8")
    numpy.cumsum(differ, out=numbers[1:])
    is_alone = numpy.append(True, differ) & numpy.append(differ, True)
    return places[~is_alone], numbers[~is_alone]


def _by_rest(keys: Column, groups: list[int], rows: list[int]) -> list[int]:
    """Rows that are equal far, by their groups and their whole keys."""
    return [row for _, _, row in sorted((group, keys._text(row), row) for group, row in zip(groups, rows))]
