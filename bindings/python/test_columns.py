# SPDX-License-Identifier: Apache-2.0
"""Columns from Python: Arrow arrays and streams, buffers and lists, their casts and keys, against plain Python and SQLite.

The memory of each random column is laid out by producer.py: slices that begin at any row, rubbish under nulls and round them.
There are 2,500 columns of each kind, or a fortieth of what DOQALLIN_COUNT says.
"""

from __future__ import annotations

import array
import gc
import os
import random
import sqlite3
import sys
import unittest
from collections.abc import Callable
from functools import cmp_to_key
from pathlib import Path
from typing import Any

import doqallin
import producer
from doqallin import Column, cast, column, columns, from_row_keys, row_keys
from producer import Chunks, Layout, layout, struct_of
from test_doqallin import some_bytes, some_text

sys.path.insert(1, str(Path(__file__).resolve().parents[2] / "tests"))
import key_layout

COUNT = int(os.environ.get("DOQALLIN_COUNT", 100_000)) // 40
INTEGERS = {"C": "u8", "S": "u16", "I": "u32", "L": "u64", "c": "i8", "s": "i16", "i": "i32", "l": "i64"}
KINDS = {**INTEGERS, "b": "bool", "u": "utf8", "U": "utf8", "z": "binary", "Z": "binary", "n": "null"}


def limits(form: str) -> tuple[int, int]:
    bits = 8 * producer.WIDTHS[form]
    return (-(2 ** (bits - 1)), 2 ** (bits - 1) - 1) if form.islower() else (0, 2**bits - 1)


def some_value(source: random.Random, form: str) -> Any:
    if form in INTEGERS:
        least, greatest = limits(form)
        return source.choice([least, greatest, source.randint(least, greatest), source.randint(max(least, -9), 9)])
    if form == "b":
        return source.random() < 0.5
    if form == "n":
        return None
    return some_text(source) if form in "uU" else some_bytes(source)


def some_values(source: random.Random, form: str, most: int = 12) -> list[Any]:
    share = source.choice([0, 0, 0.2, 1])
    return [None if source.random() < share else some_value(source, form) for _ in range(source.randrange(most))]


def in_bytes(value: Any) -> Any:
    return value.encode() if isinstance(value, str) else value


class Released(unittest.TestCase):
    """What producer.py lends is released at the end of each test."""

    def tearDown(self) -> None:
        gc.collect()
        self.assertEqual(producer.LIVE, {"schemas": 0, "arrays": 0, "streams": 0})
        self.assertEqual(producer._KEPT, {})


class OfArrow(Released):
    def test_each_kind(self) -> None:
        for seed, (form, kind) in enumerate(KINDS.items()):
            source = random.Random(seed)
            for _ in range(COUNT):
                values = some_values(source, form)
                found = column(layout(source, form, values))
                self.assertEqual((found.kind, found.to_list()), (kind, values))
                self.assertEqual(producer.LIVE, {"schemas": 0, "arrays": 1 if values and form != "n" else 0, "streams": 0})
                del found
                self.assertEqual(producer.LIVE["arrays"], 0)

    def test_a_column_and_its_slices(self) -> None:
        source = random.Random(7)
        for form in KINDS:
            for _ in range(COUNT // 20):
                values = some_values(source, form, 30)
                whole = column(layout(source, form, values))
                self.assertEqual((whole.to_list(), whole.null_count, len(whole)), (values, values.count(None), len(values)))
                start, end = sorted((source.randrange(31), source.randrange(31)))
                part, plain_part = whole[start:end][1:-1], values[start:end][1:-1]
                self.assertEqual([part[row] for row in range(len(part))], plain_part)
                self.assertEqual(column(plain_part, KINDS[form]), part)
                del whole, part

    def test_streams(self) -> None:
        source = random.Random(8)
        for form, kind in KINDS.items():
            for _ in range(COUNT // 20):
                parts = [some_values(source, form) for _ in range(source.randrange(4))]
                whole = [value for part in parts for value in part]
                chunks = [layout(source, form, part) for part in parts]
                stream = Chunks(layout(source, form, []), chunks)
                found = column(stream)
                self.assertEqual((found.kind, found.to_list(), found.null_count), (kind, whole, whole.count(None)))
                del found

    def test_structs(self) -> None:
        source = random.Random(9)
        for _ in range(COUNT):
            length, skipped = source.randrange(12), source.choice([0, 3, 8])
            forms = source.sample(list(KINDS), 3)
            values = {form: [some_value(source, form) if source.random() < 0.8 else None for _ in range(length)] for form in forms}
            children = tuple(layout(source, form, [None] * skipped + values[form], form) for form in forms)
            valid = [source.random() < 0.7 for _ in range(length)] if source.random() < 0.3 else None
            table = struct_of(source, children, length, skipped, valid)
            seen = {form: [value if valid is None or valid[row] else None for row, value in enumerate(part)] for form, part in values.items()}
            self.assertEqual({name: list(one) for name, one in columns(table).items()}, seen)
            stream = Chunks(table, [table, table])
            self.assertEqual({name: list(one) for name, one in columns(stream).items()}, {name: part * 2 for name, part in seen.items()})

    def test_streams_that_fail(self) -> None:
        source = random.Random(10)
        for fails_at in (-1, 0, 1):
            chunks = [layout(source, "l", [1, 2]), layout(source, "l", [3])]
            for call in (column, columns, row_keys, lambda stream: cast(stream, "u8")):
                with self.assertRaises(doqallin.StreamFailed) as error:
                    call(Chunks(chunks[0], chunks, fails_at))
                self.assertEqual((error.exception.errno, error.exception.strerror), (5, "the disk is gone"))

    def test_an_error_releases_all(self) -> None:
        source = random.Random(11)
        good, bad = layout(source, "u", ["a"]), layout(source, "u", ["a"])
        bad.buffers[2] = bytes([0xC3]) * len(bad.buffers[2] or b"")
        wide = layout(source, "l", [1, 2**40, None])
        for call, error in (
            (lambda: row_keys([bad]), doqallin.NotUtf8),
            (lambda: row_keys([Chunks(good, [good, bad, good])]), doqallin.NotUtf8),
            (lambda: row_keys(struct_of(source, (bad,), 1)), doqallin.NotUtf8),
            (lambda: row_keys([good, wide]), doqallin.WrongLength),
            (lambda: row_keys([good], descending=[True, False]), doqallin.WrongLength),
            (lambda: column(bad).to_list(), doqallin.NotUtf8),
            (lambda: column(bad)[0], doqallin.NotUtf8),
            (lambda: column(good, "binary"), doqallin.KindsDiffer),
            (lambda: column(Chunks(good, [good]), "i8"), doqallin.KindsDiffer),
            (lambda: column(struct_of(source, (good,), 1)), doqallin.UnknownKind),
            (lambda: columns(good), doqallin.UnknownKind),
            (lambda: cast(wide, "u8"), doqallin.CannotCast),
            (lambda: cast(Chunks(wide, [wide, wide]), "i32"), doqallin.CannotCast),
            (lambda: cast(good, "u8"), doqallin.UnknownKind),
        ):
            with self.assertRaises(error):
                call()
            gc.collect()
            self.assertEqual(producer.LIVE, {"schemas": 0, "arrays": 0, "streams": 0})

    def test_other_formats_are_named(self) -> None:
        for form, words in [
            ("e", "float16 is not taken: cast it to float32, as by .cast('float32') (e)"),
            ("d:39,10,256", "decimals are taken to 38 digits"),
            ("d:19,10,64", "decimals are taken to 38 digits"),
            ("d:5,-2", "with a scale from 0 to the precision: cast it, as by .cast(pyarrow.decimal128(38, 2)) (d:5,-2)"),
            ("d:5", "decimals are taken to 38 digits"),
            ("tDu", "a duration is not taken: cast it to int64, as by .cast('int64') (tDu)"),
            ("tiD", "an interval is not read (tiD)"),
            ("tsx:", "the format is not read (tsx:)"),
            ("vu", "a view of strings is not read: cast it to string, as by pyarrow's .cast('string') or polars' .to_arrow() (vu)"),
            ("vz", "a view of bytes is not read: cast it to binary, as by pyarrow's .cast('binary') or polars' .to_arrow() (vz)"),
            ("w:3", "bytes of fixed size are not read: cast them to binary, as by .cast('binary') (w:3)"),
            ("+l", "a list is not read (+l)"),
            ("+vl", "a view of lists is not read, nor is a list (+vl)"),
            ("+vL", "a view of lists is not read, nor is a list (+vL)"),
            ("+w:2", "a list of fixed size is not read (+w:2)"),
            ("+m", "a map is not read (+m)"),
            ("+r", "a run-end encoded column is not read: decode it first, as by pyarrow.compute.run_end_decode (+r)"),
            ("+us:0,1", "a union is not read (+us:0,1)"),
            ("?!", "the format is not read (?!)"),
        ]:
            one = Layout(form, [None, None], 0, 0, 0, "fare")
            for data in (one, Chunks(one, [one]), struct_of(random.Random(1), (one,), 0)):
                with self.assertRaises(doqallin.UnknownKind) as error:
                    columns(data)
                said = str(error.exception)
                self.assertTrue(said.startswith("column 'fare': ") and words in said, said)
                del error
        coded = Layout("i", [None, bytes(4)], 0, 1, 0)
        coded.has_dictionary = True
        with self.assertRaisesRegex(doqallin.UnknownKind, r"decode it first, as by \.cast\('string'\) if it has strings \(i\)$"):
            column(coded)

    def test_hostile_offsets(self) -> None:
        for form, width in (("u", 4), ("z", 4), ("U", 8), ("Z", 8)):
            for ends in ([3, 1, 2], [0, 9, 4], [2, -1, 4], [-3, 0, 4], [1, 5, -9]):
                offsets = b"".join(end.to_bytes(width, "little", signed=True) for end in ends)
                one = Layout(form, [None, offsets, b"abcd"], 0, 2, 0)
                with self.assertRaises(doqallin.BadOffsets):
                    row_keys([one])
                with self.assertRaises(doqallin.BadOffsets):
                    column(one).to_list()
                with self.assertRaises(doqallin.BadOffsets):
                    column(Chunks(one, [one, one])).to_list()

    def test_hostile_buffers(self) -> None:
        source, seen = random.Random(12), {True: 0, False: 0}
        for _ in range(COUNT):
            form = source.choice([form for form in KINDS if form != "n"])
            one = layout(source, form, [some_value(source, form) for _ in range(source.randrange(1, 9))])
            # What Arrow says of lengths is believed: how many rows there are, and where the last one ends.
            last = {"u": 4, "z": 4, "U": 8, "Z": 8}.get(form, 0) * (one.offset + one.length)
            for place, data in enumerate(one.buffers):
                changed = bytearray(data or b"")
                for at in range(last if last and place == 1 else len(changed)):
                    if source.random() < 0.02:
                        changed[at] = source.randrange(256)
                one.buffers[place] = bytes(changed) if data else data
            try:
                values = column(one).to_list()
            except (doqallin.BadOffsets, doqallin.NotUtf8) as error:
                with self.assertRaises(type(error)) as again:
                    row_keys([one])
                self.assertEqual(again.exception.place, error.place)
                seen[False] += 1
                del again
            else:
                told = key_layout.Options(False, True)
                self.assertEqual(row_keys([one]).to_list(), [key_layout.row_key([value], [told]) for value in values])
                seen[True] += 1
        self.assertGreater(min(seen.values()), COUNT // 20)

    def test_no_rows_need_no_buffers(self) -> None:
        for form in KINDS:
            for buffers in ([], [None, None, None], [None, b"", b""]):
                self.assertEqual(column(Layout(form, buffers, 0, 0, 0)).to_list(), [])
                self.assertEqual(len(row_keys([Layout(form, buffers, 0, 0, 0)])), 0)

    def test_rows_need_their_buffers(self) -> None:
        for form in KINDS:
            if form != "n":
                with self.assertRaises(doqallin.TooShort):
                    column(Layout(form, [None, None, None], 0, 1, 0))
                with self.assertRaises(doqallin.TooShort):
                    column(Layout(form, [], 3, 1, -1))
        short = layout(random.Random(1), "l", [1])
        for no_table, error in (
            (Layout("+s", [None], 0, 20, 0, children=(short,)), ValueError),
            (struct_of(random.Random(1), (short, short), 1), doqallin.NoColumn),
        ):
            with self.assertRaises(error):
                columns(no_table)
        for offset, length in ((-1, 1), (0, -1)):
            with self.assertRaises(ValueError):
                column(Layout("l", [None, bytes(8)], offset, length, 0))
        with self.assertRaises(doqallin.OutOfMemory):
            row_keys([Layout("n", [], 0, 2**62, 2**62)])

    def test_a_capsule_is_taken_once(self) -> None:
        class Twice:
            def __init__(self, one: Layout):
                self.given = one.__arrow_c_array__()

            def __arrow_c_array__(self, requested_schema: Any = None) -> Any:
                return self.given

        twice = Twice(layout(random.Random(1), "l", [1]))
        self.assertEqual(column(twice).to_list(), [1])
        with self.assertRaises(ValueError):
            column(twice)
        del twice


class OfOthers(unittest.TestCase):
    def test_lists(self) -> None:
        source = random.Random(20)
        for form, kind in KINDS.items():
            for _ in range(COUNT // 10):
                values = some_values(source, form)
                found = column(values, kind)
                self.assertEqual((found.kind, found.to_list(), found.null_count), (kind, values, values.count(None)))
                if any(value is not None for value in values):
                    inferred = "i64" if form in INTEGERS and max(value for value in values if value is not None) < 2**63 else "u64" if form in INTEGERS else kind
                    self.assertEqual((column(values).kind, list(column(values))), (inferred, values))

    def test_lists_that_are_no_columns(self) -> None:
        for values, of, error in [
            ([1, "a"], None, doqallin.UnknownKind),
            ([1, True], None, doqallin.UnknownKind),
            ([[1]], None, doqallin.UnknownKind),
            ([0.5, "a"], None, doqallin.UnknownKind),
            ([0.5], "i64", doqallin.KindsDiffer),
            ([1], "utf8", doqallin.KindsDiffer),
            ([True], "u8", doqallin.KindsDiffer),
            (["a"], "binary", doqallin.KindsDiffer),
            ([1], "null", doqallin.KindsDiffer),
            ([1], "f16", doqallin.UnknownKind),
            ([1], "list(u8)", doqallin.UnknownKind),
            ([256], "u8", doqallin.NotANumber),
            ([-1, 2**63], None, doqallin.NotANumber),
            ([2**64], None, doqallin.NotANumber),
            (["\ud800"], None, doqallin.NotUtf8),
            ("abc", None, doqallin.UnknownKind),
            (7, None, doqallin.UnknownKind),
            (None, None, doqallin.UnknownKind),
        ]:
            with self.assertRaises(error, msg=repr(values)):
                column(values, of)

    def test_buffers(self) -> None:
        source = random.Random(21)
        for code in "bBhHiIlLqQ":
            for _ in range(COUNT // 20):
                bits = 8 * array.array(code).itemsize
                least, greatest = (-(2 ** (bits - 1)), 2 ** (bits - 1) - 1) if code.islower() else (0, 2**bits - 1)
                values = [source.randint(least, greatest) for _ in range(source.randrange(9))]
                data = array.array(code, values)
                for taken in (data, memoryview(data), memoryview(data).toreadonly()):
                    found = column(taken)
                    self.assertEqual((found.kind, found.to_list()), (f"{'i' if code.islower() else 'u'}{bits}", values))
                del found, taken
                self.assertEqual(column(memoryview(data)[::2]).to_list(), values[::2])
                self.assertEqual(column(memoryview(data)[1:]).to_list(), values[1:])
                # What was lent is given back.
                data.append(0)
        self.assertEqual(column(b"ab").to_list(), [97, 98])
        self.assertEqual(column(bytearray()).to_list(), [])

    def test_buffers_that_are_no_columns(self) -> None:
        for data in (memoryview(bytes(4)).cast("B", (2, 2)), memoryview(b"ab").cast("c")):
            with self.assertRaises(doqallin.UnknownKind):
                column(data)

    def test_buffers_are_lent(self) -> None:
        validity, offsets, values = column(["a", None, "bc"]).buffers()
        self.assertEqual((bytes(validity or b""), bytes(values or b"")), (b"\x05", b"abc"))
        self.assertEqual((offsets or memoryview(b"")).cast("q").tolist(), [0, 1, 1, 3])
        self.assertEqual(column([1]).buffers()[:2], (None, None))

    def test_a_column_is_a_sequence(self) -> None:
        one = column([1, None, 3])
        self.assertEqual((len(one), one[-1], 3 in one, one.index(3), list(reversed(one))), (3, 3, True, 2, [3, None, 1]))
        self.assertEqual(repr(column(range(20))), "Column('i64', [0, 1, 2, 3, 4, 5, 6, 7, 8, 9, ...])")
        self.assertEqual(repr(column(["Ellipsis", None])), "Column('utf8', ['Ellipsis', None])")
        for place in (3, -4):
            with self.assertRaises(IndexError):
                one[place]
        with self.assertRaises(ValueError):
            one[::2]
        with self.assertRaises(TypeError):
            Column()
        self.assertNotEqual(one, [1, None, 3])


class OfCasts(unittest.TestCase):
    def test_columns(self) -> None:
        source = random.Random(40)
        for form in INTEGERS:
            for to, kind in INTEGERS.items():
                for _ in range(COUNT // 50 + 1):
                    values = some_values(source, form, 6)
                    least, greatest = limits(to)
                    wrong = [row for row, value in enumerate(values) if value is not None and not least <= value <= greatest]
                    if wrong:
                        with self.assertRaises(doqallin.CannotCast) as error:
                            cast(layout(source, form, values), kind)
                        self.assertEqual(error.exception.place, wrong[0])
                    else:
                        made = cast(layout(source, form, values), kind)
                        self.assertEqual((made.kind, made.to_list(), made.null_count), (kind, values, values.count(None)))

    def test_what_has_no_cast(self) -> None:
        for values, to in [(["a"], "u8"), ([1], "utf8"), ([True], "u8"), ([None], "u8")]:
            with self.assertRaises(doqallin.UnknownKind):
                cast(values, to)
        self.assertEqual(cast([1], doqallin.Kind.U8).kind, "u8")


def in_order(options: list[tuple[bool, bool]]) -> Callable[[tuple[Any, ...], tuple[Any, ...]], int]:
    """How rows compare, column by column."""

    def compare(one: tuple[Any, ...], two: tuple[Any, ...]) -> int:
        for x, y, (descending, nulls_first) in zip(one, two, options):
            if x is None or y is None:
                order = ((x is not None) - (y is not None)) * (1 if nulls_first else -1)
            else:
                order = ((in_bytes(x) > in_bytes(y)) - (in_bytes(x) < in_bytes(y))) * (-1 if descending else 1)
            if order:
                return order
        return 0

    return compare


class OfKeys(Released):
    def test_keys_sort_as_rows(self) -> None:
        source = random.Random(50)
        for _ in range(COUNT):
            rows, forms = source.randrange(8), [source.choice(list(KINDS)) for _ in range(source.randrange(1, 4))]
            values = [[some_value(source, form) if source.random() < 0.8 else None for _ in range(rows)] for form in forms]
            options = [(source.random() < 0.5, source.random() < 0.5) for _ in forms]
            descending, nulls_first = [list(each) for each in zip(*options)]
            keys = row_keys([layout(source, form, part) for form, part in zip(forms, values)], descending=descending, nulls_first=nulls_first)
            whole = list(zip(*values))
            order = cmp_to_key(in_order(options))
            self.assertEqual([whole[row] for row in sorted(range(rows), key=keys.__getitem__)], sorted(whole, key=order))
            told = [key_layout.Options(*option) for option in options]
            self.assertEqual(keys.to_list(), [key_layout.row_key(row, told) for row in whole])
            self.assertEqual((keys.kind, keys.null_count, keys[1:].to_list()), ("binary", 0, keys.to_list()[1:]))
            back = from_row_keys(keys, [KINDS[form] for form in forms], descending=descending, nulls_first=nulls_first)
            self.assertEqual([one.to_list() for one in back], values)
            part = from_row_keys(keys[1:], [KINDS[form] for form in forms], descending=descending, nulls_first=nulls_first)
            self.assertEqual([one.to_list() for one in part], [each[1:] for each in values])

    def test_keys_in_a_store(self) -> None:
        source = random.Random(51)
        for forms in ("Us", "lz", "bU", "Lc"):
            values = [[some_value(source, form) if source.random() < 0.9 else None for _ in range(COUNT)] for form in forms]
            options = [(source.random() < 0.5, source.random() < 0.5) for _ in forms]
            descending, nulls_first = [list(each) for each in zip(*options)]
            keys = row_keys([layout(source, form, part) for form, part in zip(forms, values)], descending=descending, nulls_first=nulls_first)
            store = sqlite3.connect(":memory:")
            store.execute("create table rides (number integer, key blob)")
            store.execute("create index by_key on rides (key, number)")
            store.executemany("insert into rides values (?, ?)", enumerate(keys))
            rows = list(zip(*values))
            wanted = sorted(range(COUNT), key=cmp_to_key(lambda x, y: in_order(options)(rows[x], rows[y]) or x - y))
            by_key = "select number from rides order by key, number"
            self.assertIn("using covering index by_key", str(list(store.execute(f"explain query plan {by_key}"))).lower())
            self.assertEqual([number for (number,) in store.execute(by_key)], wanted)
            middle = keys[wanted[COUNT // 2]]
            below = [number for (number,) in store.execute("select number from rides where key < ? order by key, number", (middle,))]
            self.assertEqual(below, wanted[: len(below)])
            self.assertTrue(all(in_order(options)(rows[number], rows[wanted[COUNT // 2]]) == 0 for number in wanted[len(below) : COUNT // 2 + 1]))
            store.close()

    def test_tables(self) -> None:
        source = random.Random(52)
        table = struct_of(source, (layout(source, "l", [2, 1], "a"), layout(source, "u", ["x", None], "b")), 2)
        for given in (table, Chunks(table, [table]), {"a": [2, 1], "b": ["x", None]}, [[2, 1], ["x", None]]):
            self.assertEqual([key.hex() for key in row_keys(given)], ["0d02157800", "0d0101"])
        self.assertEqual(row_keys([]).to_list(), [])
        self.assertEqual(row_keys([[], []]).to_list(), [])
        # A slice of much memory asks a buffer for its own rows alone.
        whole = column(["a" * 1000] * 1000)
        self.assertEqual(row_keys([whole[500:501]]).to_list(), [b"\x15" + b"a" * 1000 + b"\0"])
        self.assertEqual(row_keys([["\0" * 1000] * 9]).to_list(), [b"\x15" + b"\1\1" * 1000 + b"\0"] * 9)

    def test_refusals(self) -> None:
        with self.assertRaises(doqallin.WrongLength):
            row_keys([[1], [1, 2]])
        with self.assertRaises(doqallin.WrongLength):
            row_keys([[1]], descending=[True, False])
        narrow = layout(random.Random(52), "z", list(row_keys({"a": [2, 1], "b": ["x", None]})))
        self.assertEqual(from_row_keys(narrow, ["i8", "utf8"])[0].to_list(), [2, 1])
        with self.assertRaises(doqallin.KindsDiffer):
            from_row_keys([None, b"\x0c"], ["i64"])
        for keys, kinds, place in [([b"\x0c", b"\x0d\x80"], ["i8"], 2), ([b"\x0c\x0c"], ["i8"], 1), ([b""], ["i8"], 0)]:
            with self.assertRaises(doqallin.BadBytes) as error:
                from_row_keys(keys, kinds)
            self.assertEqual(error.exception.place, place)
        for no_table in ("ab", [1], 7, column([1])):
            with self.assertRaises((doqallin.UnknownKind, TypeError)):
                row_keys(no_table)

    def test_hostile_keys(self) -> None:
        source = random.Random(53)
        for _ in range(COUNT):
            kinds = [source.choice(list(KINDS.values())) for _ in range(2)]
            keys = [source.randbytes(source.randrange(5)) for _ in range(2)]
            try:
                back = from_row_keys(keys, kinds)
            except doqallin.BadBytes:
                continue
            self.assertEqual(list(row_keys(back)), keys)


if __name__ == "__main__":
    unittest.main()
