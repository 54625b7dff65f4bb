# SPDX-License-Identifier: Apache-2.0
"""Statistics from Python: of Arrow arrays, streams and tables, of slices and lists; merged, written and read back."""

from __future__ import annotations

import pickle
import random
import unittest
from functools import reduce
from operator import or_
from typing import Any

import doqallin
import producer
from doqallin import Statistics, column, statistics
from producer import Chunks, layout, struct_of
from test_columns import COUNT, KINDS, Released, in_bytes, some_value, some_values
from test_doqallin import plain_lower_text, plain_upper, plain_upper_text


def plain_bounds(values: list[Any], n: int) -> tuple[Any, bool, Any, bool]:
    """The bounds of a list, and whether each is exact."""
    found = [value for value in values if value is not None]
    if not found:
        return None, False, None, False
    least, greatest = min(found, key=in_bytes), max(found, key=in_bytes)
    if not isinstance(least, (str, bytes)):
        return least, True, greatest, True
    lower = plain_lower_text(least, n) if isinstance(least, str) else least[:n]
    upper = plain_upper_text(greatest, n) if isinstance(greatest, str) else plain_upper(greatest, n)
    return lower, lower == least, upper, upper == greatest


def told(of: Statistics) -> tuple[Any, ...]:
    return of.row_count, of.null_count, of.lower, of.lower_is_exact, of.upper, of.upper_is_exact


def plain(values: list[Any], n: int = 16) -> tuple[Any, ...]:
    return len(values), values.count(None), *plain_bounds(values, n)


def plain_merged(parts: list[list[Any]]) -> tuple[Any, ...]:
    """The statistics of parts whose bounds were cut before they were merged."""
    rows, nulls = sum(map(len, parts)), sum(part.count(None) for part in parts)
    bounds = [plain_bounds(part, 16) for part in parts if len(part) > part.count(None)]
    if not bounds:
        return rows, nulls, None, False, None, False
    lower = min((bound[0] for bound in bounds), key=in_bytes)
    upper = None if any(bound[2] is None for bound in bounds) else max((bound[2] for bound in bounds), key=in_bytes)
    lower_is_exact = any(bound[0] == lower and bound[1] for bound in bounds)
    return rows, nulls, lower, lower_is_exact, upper, upper is not None and any(bound[2] == upper and bound[3] for bound in bounds)


class OfColumns(Released):
    def test_each_kind(self) -> None:
        for seed, (form, kind) in enumerate(KINDS.items()):
            source = random.Random(seed)
            for _ in range(COUNT):
                values, n = some_values(source, form), source.choice([0, 1, 3, 8, 16, 2**64])
                found = statistics(layout(source, form, values), n)
                self.assertEqual((found.kind, *told(found)), (kind, *plain(values, n)), (form, values, n))
                self.assertEqual(producer.LIVE["arrays"], 0)

    def test_slices_and_lists(self) -> None:
        source = random.Random(7)
        for form, kind in KINDS.items():
            for _ in range(COUNT // 20):
                values = some_values(source, form, 30)
                whole = column(layout(source, form, values))
                start, end = sorted((source.randrange(31), source.randrange(31)))
                self.assertEqual(told(statistics(whole[start:end][1:-1])), plain(values[start:end][1:-1]))
                self.assertEqual(told(statistics(values, of=kind)), plain(values))
                del whole

    def test_streams(self) -> None:
        source = random.Random(8)
        for form, kind in KINDS.items():
            for _ in range(COUNT // 20):
                parts = [some_values(source, form) for _ in range(source.randrange(4))]
                found = statistics(Chunks(layout(source, form, []), [layout(source, form, part) for part in parts]))
                self.assertEqual((found.kind, *told(found)), (kind, *plain_merged(parts)))

    def test_a_chunk_is_released_before_the_next(self) -> None:
        source = random.Random(9)
        live = []

        class Watched(producer.Layout):
            def fill_array(self, array: Any) -> None:
                live.append(producer.LIVE["arrays"])
                super().fill_array(array)

        made = layout(source, "l", [1, 2])
        chunks = [Watched(made.form, made.buffers, made.offset, made.length, made.null_count) for _ in range(4)]
        self.assertEqual(statistics(Chunks(made, chunks)).row_count, 8)
        self.assertEqual(live, [0, 0, 0, 0])

    def test_tables(self) -> None:
        source = random.Random(10)
        for _ in range(COUNT // 4):
            length, skipped = source.randrange(12), source.choice([0, 3, 8])
            forms = source.sample(list(KINDS), 3)
            values = {form: [some_value(source, form) if source.random() < 0.8 else None for _ in range(length)] for form in forms}
            children = tuple(layout(source, form, [None] * skipped + values[form], form) for form in forms)
            valid = [source.random() < 0.7 for _ in range(length)] if source.random() < 0.3 else None
            table = struct_of(source, children, length, skipped, valid)
            seen = {form: [value if valid is None or valid[row] else None for row, value in enumerate(part)] for form, part in values.items()}
            self.assertEqual({name: told(of) for name, of in statistics(table).items()}, {name: plain(part) for name, part in seen.items()})
            twice = statistics(Chunks(table, [table, table]))
            self.assertEqual({name: told(of) for name, of in twice.items()}, {name: plain_merged([part, part]) for name, part in seen.items()})

    def test_an_error_releases_all(self) -> None:
        source = random.Random(11)
        good, bad = layout(source, "u", ["a"]), layout(source, "u", ["a"])
        bad.buffers[2] = bytes([0xC3]) * len(bad.buffers[2] or b"")
        for data in (bad, Chunks(good, [good, bad, good]), struct_of(source, (bad,), 1)):
            with self.assertRaises(doqallin.NotUtf8) as error:
                statistics(data)
            self.assertEqual(error.exception.place, 0)
        for fails_at in (-1, 0, 1):
            with self.assertRaises(doqallin.StreamFailed):
                statistics(Chunks(good, [good, good], fails_at))


class OfStatistics(unittest.TestCase):
    def test_merged_bytes_and_pickles(self) -> None:
        source = random.Random(30)
        for form, kind in KINDS.items():
            for _ in range(COUNT // 5):
                parts = [some_values(source, form) for _ in range(3)]
                each = [statistics(part, of=kind) for part in parts]
                one = reduce(or_, each)
                self.assertEqual(told(one), plain_merged(parts))
                self.assertEqual(one, each[0] | (each[1] | each[2]))
                self.assertEqual(told(one), told(each[2] | each[0] | each[1]))
                back = Statistics.from_bytes(bytes(one), kind)
                self.assertEqual((back, hash(back), pickle.loads(pickle.dumps(one))), (one, hash(one), one))

    def test_hostile_bytes(self) -> None:
        source = random.Random(31)
        good = [bytes(statistics(some_values(source, form), of=kind)) for form, kind in KINDS.items() for _ in range(20)]
        for _ in range(COUNT):
            data = bytearray(source.choice(good))
            for _ in range(source.randrange(1, 4)):
                data[source.randrange(len(data))] = source.choice([0, 1, 13, 21, 255, source.randrange(256)])
            cut = bytes(data[: source.randrange(len(data) + 1)] if source.random() < 0.3 else data)
            kind = source.choice(list(KINDS.values()))
            try:
                back = Statistics.from_bytes(cut, kind)
            except doqallin.BadBytes as error:
                self.assertLessEqual(error.place or 0, len(cut))
            else:
                self.assertEqual(bytes(back), cut)

    def test_what_differs(self) -> None:
        with self.assertRaises(doqallin.KindsDiffer):
            statistics([1]) | statistics(["a"])
        self.assertEqual(statistics([None]) | statistics([7]), statistics([None, 7]))
        self.assertEqual(statistics([7]) | statistics([]), statistics([7]))
        self.assertNotEqual(statistics([], of="i8"), statistics([], of="i16"))
        self.assertEqual(Statistics.from_bytes(bytes(statistics([7], of="i16")), "i64"), statistics([7]))
        with self.assertRaises(TypeError):
            statistics([7]) | 7
        with self.assertRaises(doqallin.NegativeLength):
            statistics([7], -1)
        most = bytes([1, 1]) + bytes([255] * 8) + bytes(8)
        with self.assertRaises(doqallin.TooManyRows):
            Statistics.from_bytes(most, "i64") | statistics([1])


if __name__ == "__main__":
    unittest.main()
