# SPDX-License-Identifier: Apache-2.0
"""Arrow data that come out: columns and tables by their capsules, read and released by consumer.py, and the order of rows.

There are 500 columns of each kind, or as many as a 200th of what DOQALLIN_COUNT says.
"""

from __future__ import annotations

import copy
import ctypes
import gc
import pickle
import random
import sqlite3
import subprocess
import sys
import threading
import unittest
from functools import cmp_to_key
from typing import Any
from unittest import mock

import consumer
import doqallin
import producer
import test_columns
import test_logical
from consumer import Batches, Lent
from doqallin import Column, Filter, cast, column, columns, from_row_keys, row_keys, sort_rows, table
from doqallin._export import _in_capsules, _lent
from producer import WIDTHS, CArray, Chunks, CSchema, CStream, Layout, layout
from test_columns import COUNT, KINDS, in_order, some_value

SOME = max(1, COUNT // 5)
FORMS = [*KINDS, *test_logical.KINDS]


class Released(test_columns.Released):
    """Both what producer.py lends and what the package lends is released at the end of each test."""

    def tearDown(self) -> None:
        super().tearDown()
        self.assertEqual((_lent, _in_capsules), ({}, {}))


def some_items(source: random.Random, kind: Any) -> list[Any]:
    """Items of a kind as consumer.py reads them."""
    if isinstance(kind, test_logical.Kind):
        return test_logical.some_items(source, kind)
    values = test_columns.some_values(source, kind)
    return [value if value is None else item_of(kind, value) for value in values]


def item_of(form: str, value: Any) -> Any:
    if form in WIDTHS:
        return value.to_bytes(WIDTHS[form], "little", signed=form.islower())
    return value.encode() if isinstance(value, str) else value


def laid_out(source: random.Random, kind: Any, items: list[Any], name: str = "") -> Layout:
    if isinstance(kind, test_logical.Kind):
        return test_logical.laid_out(source, kind, items, name)
    return layout(source, kind, items, name, WIDTHS.get(kind, 0))


def form_of(kind: Any) -> str:
    """The format with which a column comes out: that with which it came in, but that dates in milliseconds are timestamps."""
    form = kind.form if isinstance(kind, test_logical.Kind) else kind
    return {"tdm": "tsm:"}.get(form, form.replace("Europe/Oslo", "UTC"))


class OfColumns(Released):
    def test_each_kind(self) -> None:
        for seed, kind in enumerate(FORMS):
            source = random.Random(seed)
            for _ in range(SOME):
                items = some_items(source, kind)
                one = column(laid_out(source, kind, items))
                start, end = sorted((source.randrange(13), source.randrange(13)))
                part = one[start:end]
                capsules = part.__arrow_c_array__(source.choice([None, object(), one.__arrow_c_schema__()]))
                schema, array = consumer.take(capsules[0], CSchema), consumer.take(capsules[1], CArray)
                del one, part, capsules
                form = schema.format.decode()
                self.assertEqual((form, schema.name, schema.flags, schema.n_children), (form_of(kind), b"", 2, 0))
                self.assertEqual(consumer.items(form, array), items[start:end])
                consumer.release(schema)
                consumer.release(array)
                self.assertEqual((producer.LIVE["arrays"], _lent), (0, {}))

    def test_columns_that_were_made(self) -> None:
        for seed, kind in enumerate(FORMS):
            source = random.Random(seed)
            for _ in range(SOME // 5):
                items = some_items(source, kind)
                values = column(laid_out(source, kind, items)).to_list()
                word = kind.word if isinstance(kind, test_logical.Kind) else KINDS[kind]
                made = column(values, word)
                self.assertEqual(column(Lent(made)), made)
                parts = Chunks(laid_out(source, kind, []), [laid_out(source, kind, items), laid_out(source, kind, items)])
                joined = column(parts)
                self.assertEqual(column(Lent(joined[1:])), joined[1:])

    def test_copies_and_pickles(self) -> None:
        script = "import pickle, sys; sys.stdout.buffer.write(pickle.dumps([one.to_list() for one in pickle.load(sys.stdin.buffer).values()]))"
        made = {}
        for seed, kind in enumerate(FORMS):
            source = random.Random(seed)
            whole = column(laid_out(source, kind, [item for _ in range(5) for item in some_items(source, kind)]))
            one = whole[source.randrange(3) :]
            del whole
            copies = [pickle.loads(pickle.dumps(one)), copy.copy(one), copy.deepcopy(one)]
            self.assertTrue(all(each == one for each in copies))
            self.assertTrue(all(column(Lent(each)) == one for each in copies))
            made[str(seed)] = column(copies[0][:3].to_list() or [None] * 3, one.kind) if len(one) < 3 else one[:3]
        made = {name: one for name, one in made.items() if len(one) == 3}
        ran = subprocess.run([sys.executable, "-c", script], input=pickle.dumps(table(made)), capture_output=True)
        self.assertEqual(repr(pickle.loads(ran.stdout)), repr([one.to_list() for one in made.values()]), ran.stderr)

    def test_nothing_is_copied(self) -> None:
        source = random.Random(1)
        for form in KINDS:
            whole = column(layout(source, form, [some_value(source, form) for _ in range(20)]))
            array = consumer.take(whole[3:].__arrow_c_array__()[1], CArray)
            buffers = (whole._values,) if not whole._kind.has_offsets else (whole._offsets, whole._values)
            if form != "n":
                self.assertEqual([array.buffers[place] for place in range(1, array.n_buffers)], [buffer.address for buffer in buffers])
            self.assertEqual((array.offset, array.length), (whole.offset + 3, 17))
            consumer.release(array)
            del whole

    def test_capsules_that_nobody_takes(self) -> None:
        one = column(layout(random.Random(2), "u", ["a", None]))
        schema, array = one.__arrow_c_array__()
        del one
        self.assertEqual((producer.LIVE["arrays"], len(_lent), len(_in_capsules)), (1, 2, 2))
        del schema
        self.assertEqual((producer.LIVE["arrays"], len(_lent), len(_in_capsules)), (1, 1, 1))
        del array
        self.assertEqual((producer.LIVE["arrays"], len(_lent), len(_in_capsules)), (0, 0, 0))

    def test_a_capsule_is_taken_once(self) -> None:
        one = column([1, 2])
        given = one.__arrow_c_array__()
        twice = mock.Mock(spec=["__arrow_c_array__"], __arrow_c_array__=lambda: given)
        self.assertEqual(column(twice), one)
        with self.assertRaises(ValueError):
            column(twice)

    def test_released_on_another_thread(self) -> None:
        arrays = [consumer.take(column(layout(random.Random(3), "l", [1])).__arrow_c_array__()[1], CArray) for _ in range(20)]
        self.assertEqual(producer.LIVE["arrays"], 20)
        threads = [threading.Thread(target=consumer.release, args=(array,)) for array in arrays]
        for thread in threads:
            thread.start()
        for thread in threads:
            thread.join()
        self.assertEqual(producer.LIVE["arrays"], 0)
        # A thread that Python knows nothing of.
        process, thread = ctypes.CDLL(None), ctypes.c_ulong()
        array = consumer.take(column(layout(random.Random(3), "l", [1])).__arrow_c_array__()[1], CArray)
        process.pthread_create(ctypes.byref(thread), None, ctypes.cast(array.release, ctypes.c_void_p), ctypes.byref(array))
        process.pthread_join(thread, None)
        self.assertEqual((producer.LIVE["arrays"], bool(array.release)), (0, False))

    def test_released_while_an_error_is_raised(self) -> None:
        one, said = column(layout(random.Random(4), "l", [1])), []
        with mock.patch("sys.unraisablehook", said.append):
            # The list, which alone has the capsules, goes while the error is set.
            with self.assertRaises((IndexError, SystemError)) as error:
                [one.__arrow_c_array__()][1]
            del one
        self.assertEqual((producer.LIVE["arrays"], _lent), (0, {}))
        self.assertIn(IndexError, [type(error.exception), *(told.exc_type for told in said)])
        said.clear()

    def test_what_is_left_at_the_end(self) -> None:
        script = """
import sys
import doqallin
one = doqallin.column([1, None])
class Cycle: pass
cycle = Cycle()
cycle.itself, cycle.capsules = cycle, one.__arrow_c_array__()
sys.kept = one.__arrow_c_array__(), doqallin.table({"a": one}).__arrow_c_stream__()
doqallin.kept, kept = one.__arrow_c_schema__(), one.__arrow_c_array__()
"""
        ran = subprocess.run([sys.executable, "-c", script], capture_output=True, text=True)
        self.assertEqual((ran.returncode, ran.stdout, ran.stderr), (0, "", ""))


class OfTables(Released):
    def test_streams(self) -> None:
        source = random.Random(10)
        for _ in range(SOME):
            length, names = source.randrange(9), source.sample(["a", "fare", "by", "Ålesund", "", " "], source.randrange(5))
            kinds = [source.choice(FORMS) for _ in names]
            items = [[items_with_nulls(source, kind) for _ in range(length)] for kind in kinds]
            whole = table({name: laid_out(source, kind, part) for name, kind, part in zip(names, kinds, items)})
            batches = Batches(whole.__arrow_c_stream__(None))
            self.assertEqual(batches.formats, [(name.encode(), form_of(kind)) for name, kind in zip(names, kinds)])
            rows = length if names else 0
            self.assertEqual((len(whole), whole.row_count, list(whole)), (len(names), rows, names))
            back = columns(Lent(whole))
            self.assertEqual(back, dict(whole))
            del whole, back
            self.assertEqual(batches.read(), [{name.encode(): part for name, part in zip(names, items)}])
            self.assertEqual((producer.LIVE["arrays"], _lent), (0, {}))

    def test_what_calls_answer(self) -> None:
        fares, cities = column(layout(random.Random(11), "l", [40, None, 3])), column(["Oslo", "Bergen", None])
        keys = row_keys([cities, fares])
        made = table(
            {
                "fare": cast(fares, "u8"),
                "match": Filter("fare > 3", {"fare": "i64?"}).mask({"fare": fares}),
                "key": keys,
                "city": from_row_keys(keys, ["utf8?", "i64?"])[0],
                "place": sort_rows([cities]),
            }
        )
        self.assertEqual(columns(Lent(made)), dict(made))
        schema = consumer.take(made.__arrow_c_schema__(), CSchema)
        self.assertEqual(consumer.formats(schema), [(b"fare", "C"), (b"match", "b"), (b"key", "Z"), (b"city", "U"), (b"place", "l")])
        consumer.release(schema)
        (batch,) = Batches(made.__arrow_c_stream__()).read()
        self.assertEqual((batch[b"match"], batch[b"city"]), ([True, False, False], [b"Oslo", b"Bergen", None]))
        self.assertEqual((batch[b"key"], batch[b"fare"]), (list(keys), [b"\x28", None, b"\x03"]))

    def test_tables_are_taken_as_dicts_are(self) -> None:
        made = table({"a": [2, 1], "b": ["x", None]})
        self.assertEqual(repr(made), "Table({'a': Column('i64', [2, 1]), 'b': Column('utf8', ['x', None])})")
        self.assertEqual(list(table(Lent(made), ["b"])), ["b"])
        self.assertEqual((list(row_keys(made)), list(sort_rows(made))), (list(row_keys(dict(made))), [1, 0]))
        self.assertEqual(list(Filter("a > 1", {"a": "i64"}).mask(made)), [True, False])
        self.assertEqual(doqallin.statistics(made)["a"], doqallin.statistics([2, 1]))
        self.assertIs(columns(made)["a"], made["a"])
        self.assertIs(column(made["a"]), made["a"])
        with self.assertRaises(doqallin.WrongLength):
            table({"a": [1], "b": [1, 2]})
        with self.assertRaises(doqallin.NotAValue):
            table({"a\0b": [1]}).__arrow_c_stream__()

    def test_a_name_that_is_no_text(self) -> None:
        name = b"\xe5r".decode(errors="surrogateescape")
        (batch,) = Batches(table({name: [True]}).__arrow_c_stream__()).read()
        self.assertEqual(batch, {b"\xe5r": [True]})

    def test_a_child_that_is_taken(self) -> None:
        source = random.Random(12)
        whole = table({name: layout(source, "u", [name, None]) for name in "abc"})
        batches = Batches(whole.__arrow_c_stream__())
        del whole
        array = batches.next()
        child = consumer.moved(array.children[1][0])
        consumer.release(array)
        consumer.release(batches.stream)
        self.assertEqual((consumer.items("u", child), producer.LIVE["arrays"]), ([b"b", None], 1))
        consumer.release(child)

    def test_a_stream_that_is_left(self) -> None:
        whole = table({"a": layout(random.Random(13), "l", [1])})
        batches = Batches(whole.__arrow_c_stream__())
        array = batches.next()
        consumer.release(batches.stream)
        self.assertEqual(consumer.items("l", array.children[0][0]), [bytes([1, *[0] * 7])])
        consumer.release(array)
        # Nobody takes the one, and nobody reads the other.
        whole.__arrow_c_stream__()
        consumer.release(consumer.take(whole.__arrow_c_stream__(), CStream))


def items_with_nulls(source: random.Random, kind: Any) -> Any:
    if source.random() < 0.3 or kind == "n":
        return None
    return kind.item(source) if isinstance(kind, test_logical.Kind) else item_of(kind, some_value(source, kind))


def ways() -> list[Any]:
    """Without numpy, and with it if there is one."""
    try:
        import numpy
    except ImportError:
        return [None]
    return [None, numpy]


class OfOrder(Released):
    def orders(self, *given: Any, **options: Any) -> list[int]:
        """The order of rows, the same each way."""
        found = []
        for numpy in ways():
            with mock.patch.dict(sys.modules, {"numpy": numpy} if numpy else {}):
                if not numpy:
                    sys.modules.pop("numpy", None)
                found.append(sort_rows(*given, **options))
        self.assertTrue(all(order == found[0] and order.kind == "i64" for order in found))
        return list(found[0])

    def test_rows(self) -> None:
        source = random.Random(20)
        for _ in range(COUNT):
            rows, forms = source.randrange(12), [source.choice(list(KINDS)) for _ in range(source.randrange(1, 4))]
            few = [[some_value(source, form) for _ in range(3)] for form in forms]
            values = [[source.choice(part) if source.random() < 0.8 else None for _ in range(rows)] for part in few]
            options = [(source.random() < 0.5, source.random() < 0.5) for _ in forms]
            descending, nulls_first = [list(each) for each in zip(*options)]
            order = self.orders([layout(source, form, part) for form, part in zip(forms, values)], descending=descending, nulls_first=nulls_first)
            whole = list(zip(*values))
            self.assertEqual(order, sorted(range(rows), key=lambda row: cmp_to_key(in_order(options))(whole[row])))

    def test_tuples(self) -> None:
        source = random.Random(21)
        numbers, texts = [source.randint(-9, 9) for _ in range(COUNT)], [test_columns.some_text(source) for _ in range(COUNT)]
        rows = list(zip(numbers, (text.encode() for text in texts)))
        self.assertEqual(self.orders([numbers, texts]), sorted(range(COUNT), key=rows.__getitem__))
        self.assertEqual(self.orders([numbers, texts], descending=True), sorted(range(COUNT), key=rows.__getitem__, reverse=True) if len(set(rows)) == COUNT else self.backwards(rows))

    def backwards(self, rows: list[Any]) -> list[int]:
        """The order from the greatest on, where rows that are equal stay in their order."""
        return sorted(sorted(range(len(rows))), key=cmp_to_key(lambda one, two: (rows[one] < rows[two]) - (rows[one] > rows[two])))

    def test_keys_that_begin_alike(self) -> None:
        source = random.Random(22)
        for length in (1, 7, 8, 9, 30, 63, 64, 65, 200):
            ends = ["", "\0", "\1", "a", "ab", "\0\0\0\0\0\0\0\0\0", "ø" * 9]
            texts = ["x" * length + source.choice(ends) for _ in range(200)] + ["x" * source.randrange(length + 1) for _ in range(100)]
            wanted = sorted(range(300), key=lambda row: texts[row].encode())
            self.assertEqual(self.orders([texts]), wanted)
            self.assertEqual(self.orders([["Oslo"] * 300, texts, list(range(300))]), wanted)

    def test_beside_sqlite(self) -> None:
        source = random.Random(23)
        for _ in range(max(1, COUNT // 250)):
            rows = 500
            towns = [source.choice(["Oslo", "Ås", "", "Bergen\0", "Bergen", None]) for _ in range(rows)]
            fares = [source.choice([None, -(2**63), 2**63 - 1, *range(-3, 3)]) for _ in range(rows)]
            parts = [source.choice([None, 0.5, -0.5, 1e300, -1e-310, 0.0]) for _ in range(rows)]
            store = sqlite3.connect(":memory:")
            store.execute("create table rides (number integer, town text, fare integer, part real)")
            store.executemany("insert into rides values (?, ?, ?, ?)", zip(range(rows), towns, fares, parts))
            options = [(source.random() < 0.5, source.random() < 0.5) for _ in range(3)]
            words = [f"{name} {'desc' if down else 'asc'} nulls {'first' if first else 'last'}" for name, (down, first) in zip(("town", "fare", "part"), options)]
            wanted = [number for (number,) in store.execute(f"select number from rides order by {', '.join(words)}, number")]
            descending, nulls_first = [list(each) for each in zip(*options)]
            self.assertEqual(self.orders({"town": towns, "fare": fares, "part": parts}, descending=descending, nulls_first=nulls_first), wanted, words)
            store.close()

    def test_few_and_refused(self) -> None:
        self.assertEqual((self.orders([]), self.orders([[]]), self.orders([[None]]), self.orders([[7]])), ([], [], [0], [0]))
        with self.assertRaises(doqallin.WrongLength):
            sort_rows([[1], [1, 2]])
        with self.assertRaises(doqallin.WrongLength):
            sort_rows([[1]], descending=[True, False])


if __name__ == "__main__":
    unittest.main()
