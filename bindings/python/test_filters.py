# SPDX-License-Identifier: Apache-2.0
"""Filters from Python: of rows and of zones, beside SQLite, three-valued logic and all."""

from __future__ import annotations

import pickle
import random
import sqlite3
import unittest
from itertools import product
from typing import Any

import doqallin
from doqallin import Filter, Outcomes, Zones, column, columns, statistics
from producer import Chunks, Layout, layout, struct_of
from test_columns import COUNT, Released

SCHEMA = {"n": "i16", "big number": "i64", "truth": "bool", "city": "utf8", "data": "binary"}
FORMS = {"n": "s", "big number": "l", "truth": "b", "city": "u", "data": "z"}
PATTERNS = ["%", "O%", "Os%", "ñ%", "ñ", "B_r%n", "%s%", "_", "%a!%b", "O''%", "!%%", ""]
WORDS = ["", "Oslo", "Os", "Bergen", "ñ", "O'Hara", "a%b"]


def literal(source: random.Random, name: str) -> str:
    if source.random() < 0.1:
        return "null"
    if name in ("n", "big number"):
        return str(source.choice([0, 1, -1, 5, 100, 32767, 32768, -32769, 2**63 - 1, -(2**63)]))
    if name == "truth":
        return source.choice(["true", "false"])
    if name == "city":
        return "'" + source.choice(WORDS).replace("'", "''") + "'"
    return f"x'{source.choice([b'', b'a', bytes([0, 255]), b'ab']).hex()}'"


def some_filter(source: random.Random, depth: int) -> str:
    if depth and source.random() < 0.7:
        if source.random() < 0.25:
            return f"not ({some_filter(source, depth - 1)})"
        return f"({some_filter(source, depth - 1)} {source.choice(['and', 'or'])} {some_filter(source, depth - 1)})"
    name = source.choice(list(SCHEMA))
    shown = f'"{name}"'
    test = source.choice(["compare", "compare", "null", "in", "between", "like", "constant"])
    negated = source.choice(["", "not "])
    if test == "null":
        return f"{shown} is {negated}null"
    if test == "in":
        return f"{shown} {negated}in ({', '.join(literal(source, name) for _ in range(source.randrange(4)))})"
    if test == "between":
        return f"{shown} {negated}between {literal(source, name)} and {literal(source, name)}"
    if test == "like":
        return f"city {negated}like '{source.choice(PATTERNS)}' escape '!'"
    if test == "constant":
        return source.choice(["true", "false", "null"])
    return f"{shown} {source.choice(['=', '<>', '!=', '<', '<=', '>', '>='])} {literal(source, name)}"


def some_table(source: random.Random, rows: int) -> dict[str, list[Any]]:
    def value(name: str) -> Any:
        if source.random() < 0.2:
            return None
        if name in ("n", "big number"):
            return source.choice([0, 1, -1, 5, 100, 32767, -32768])
        return source.random() < 0.5 if name == "truth" else source.choice(WORDS) if name == "city" else source.choice([b"", b"a", b"\0\xff", b"b"])

    return {name: [value(name) for _ in range(rows)] for name in SCHEMA}


class OfFilters(Released):
    def test_beside_sqlite(self) -> None:
        source = random.Random(60)
        store = sqlite3.connect(":memory:")
        store.execute("pragma case_sensitive_like = on")
        store.execute('create table t (n integer, "big number" integer, truth integer, city text, data blob)')
        seen = 0
        for _ in range(COUNT // 10):
            table = some_table(source, source.randrange(1, 40))
            store.execute("delete from t")
            store.executemany("insert into t values (?, ?, ?, ?, ?)", list(zip(*table.values())))
            arrow = struct_of(source, tuple(layout(source, FORMS[name], part, name) for name, part in table.items()), len(table["n"]))
            batch = columns(arrow)
            cuts = sorted(source.randrange(len(table["n"]) + 1) for _ in range(3))
            zones = [(start, end) for start, end in zip([0, *cuts], [*cuts, len(table["n"])])]
            prepared = Zones({name: statistics(one[start:end], 2) for name, one in batch.items() if source.random() < 0.9} for start, end in zones)
            for _ in range(10):
                text = some_filter(source, 3)
                truths = [truth for (truth,) in store.execute(f"select ({text}) from t order by rowid")]
                found = Filter(text, SCHEMA)
                self.assertEqual(list(found.mask(batch)), [truth == 1 for truth in truths], text)
                self.assertEqual(list(found.mask(table)), [truth == 1 for truth in truths], text)
                all_outcomes = found.outcomes_of(prepared)
                for (start, end), outcomes, zone in zip(zones, all_outcomes, prepared):
                    for truth in truths[start:end]:
                        self.assertIn({0: Outcomes.MAY_BE_FALSE, 1: Outcomes.MAY_BE_TRUE, None: Outcomes.MAY_BE_UNKNOWN}[truth], outcomes, text)
                    self.assertEqual(found.outcomes(zone), outcomes)
                    self.assertEqual(found.may_match(zone), Outcomes.MAY_BE_TRUE in outcomes)
                    self.assertEqual(found.must_match(zone), outcomes in (Outcomes(0), Outcomes.MAY_BE_TRUE))
                left = found.prune(prepared)
                self.assertEqual(left, [place for place, outcomes in enumerate(all_outcomes) if Outcomes.MAY_BE_TRUE in outcomes])
                self.assertEqual(left, found.prune(list(prepared)))
                seen += len(zones) - len(left)
            del batch
        self.assertGreater(seen, COUNT // 10)
        store.close()

    def test_blocks_of_rows(self) -> None:
        """Rows are asked in words of 64, and these in blocks of 2,048."""
        source = random.Random(61)
        store = sqlite3.connect(":memory:")
        store.execute("pragma case_sensitive_like = on")
        for rows in (0, 1, 7, 8, 9, 63, 64, 65, 127, 128, 129, 2047, 2048, 2049, 4095, 4096, 4097):
            table = some_table(source, rows)
            store.execute("drop table if exists t")
            store.execute('create table t (n integer, "big number" integer, truth integer, city text, data blob)')
            store.executemany("insert into t values (?, ?, ?, ?, ?)", list(zip(*table.values())))
            batch = columns(struct_of(source, tuple(layout(source, FORMS[name], part, name) for name, part in table.items()), rows))
            for _ in range(20):
                text = some_filter(source, 4)
                matches = [truth == 1 for (truth,) in store.execute(f"select ({text}) from t order by rowid")]
                self.assertEqual(list(Filter(text, SCHEMA).mask(batch)), matches, (rows, text))
            del batch
        store.close()

    def test_a_block_that_is_decided(self) -> None:
        """Where one side says the same of a whole block, the other may say anything of it."""
        rows = range(5000)
        table, schema = {"a": list(rows), "b": [None if row % 3 else row % 2 for row in rows]}, {"a": "i64", "b": "i64?"}
        sides = {
            "a >= 4096": [row >= 4096 for row in rows],
            "a < 2048": [row < 2048 for row in rows],
            "a < 4100": [row < 4100 for row in rows],
            "b = 1": [None if row % 3 else row % 2 == 1 for row in rows],
            "b in (0, 1)": [None if row % 3 else True for row in rows],
            "b is null": [row % 3 != 0 for row in rows],
        }
        for (first, xs), (second, ys) in product(sides.items(), repeat=2):
            for text, is_match in (
                (f"{first} and {second}", lambda x, y: x is True and y is True),
                (f"{first} or {second}", lambda x, y: x is True or y is True),
                (f"not ({first} and {second})", lambda x, y: x is False or y is False),
                (f"not ({first} or {second})", lambda x, y: x is False and y is False),
            ):
                self.assertEqual(list(Filter(text, schema).mask(table)), [is_match(x, y) for x, y in zip(xs, ys)], text)

    def test_a_stream_is_masked(self) -> None:
        source = random.Random(61)
        found = Filter("a > 3", {"a": "i64", "b": "i64"})
        # A column that the filter does not name is not looked at: it may lack its rows, or be of a format that is not read.
        for odd in [(), (Layout("e", [], 0, 0, 0, "b"),), (Layout("+l", [], 5, 9, 0, "b"), Layout("l", [], -1, -1, 0, "b"))]:
            parts = [struct_of(source, (layout(source, "l", values, "a"), *odd), len(values)) for values in ([1, 5], [], [None, 7])]
            self.assertEqual(found.mask(Chunks(parts[0], parts)).to_list(), [False, True, False, True])
            for part in parts:
                self.assertEqual(Filter("true", {}).mask(part).to_list(), [True] * part.length)
            if odd:
                with self.assertRaises((doqallin.UnknownKind, doqallin.NoColumn)):
                    Filter("a > 3 or b = 1", {"a": "i64", "b": "i64"}).mask(Chunks(parts[0], parts))
        self.assertEqual(found.mask({"a": [1, 5], "b": object()}).to_list(), [False, True])
        schema = {"fare": "i64", "far": "i64", "a": "i64", 'the "b"': "i64", "Oslo": "i64", "": "i64"}
        table = {"fare": [1, 5], "far": object(), "a": object(), 'the "b"': [7, 8]}
        self.assertEqual(Filter("fare > 3 and \"the \"\"b\"\"\" = 8", schema).mask(table).to_list(), [False, True])
        self.assertEqual(Filter("city = 'Oslo'", {"city": "utf8", **schema}).mask({"city": ["Oslo"]}).to_list(), [True])
        self.assertEqual(Filter("$2 > 3", {"b": "i64", "a": "i64"}).mask({"a": [1, 5], "b": [0, 0]}).to_list(), [False, True])
        self.assertEqual(found.mask([4, 3]).to_list(), [True, False])

    def test_kinds(self) -> None:
        found = Filter("city = 'Oslo'", {"city": "utf8?"})
        self.assertEqual(found.mask({"city": [None, None]}).to_list(), [False, False])
        with self.assertRaises(doqallin.KindsDiffer):
            found.mask({"city": column([1])})
        with self.assertRaises(doqallin.NoColumn):
            found.mask({"town": ["Oslo"]})
        with self.assertRaises(doqallin.UnknownKind):
            Filter("x = 1", {"x": "f16"})
        with self.assertRaises(doqallin.BadBytes):
            found.may_match({"city": statistics([1])})
        self.assertEqual(found.outcomes({}), Outcomes(7))
        self.assertEqual(found.prune([]), [])
        self.assertEqual(pickle.loads(pickle.dumps(found)), found)

    def test_mistakes(self) -> None:
        for text in ["", "city", "city = ", "city = 1", "town = 'Oslo'", "city = 'Oslo", "city = 'Oslo' and", "fare >= 'a'", "city like '%a' escape 'ab'", "city ilike '!' escape '!'", "(city = 'a'"]:
            with self.assertRaises(doqallin.BadFilter, msg=text) as error:
                Filter(text, {"city": "utf8?", "fare": "u32"})
            self.assertLessEqual(error.exception.place or 0, len(text.encode()))

    def test_nests(self) -> None:
        for depth in [0, 1, 32, 500]:
            wanted = Filter("not " * depth + "n = 1", {"n": "i64"}, depth)
            self.assertEqual(list(wanted.mask({"n": [1, 2]})), [depth % 2 == 0, depth % 2 == 1])
            self.assertEqual(pickle.loads(pickle.dumps(wanted)).depth, depth)
            with self.assertRaises(doqallin.BadFilter) as error:
                Filter("not " * (depth + 1) + "n = 1", {"n": "i64"}, depth)
            self.assertEqual(error.exception.place, 4 * (depth + 1))
        with self.assertRaises(doqallin.BadFilter):
            Filter("not " * 33 + "n = 1", {"n": "i64"})
        # A test nests no level, whichever it is.
        for part, is_true in [("n = 1", True), ("n is not null", True), ("n not in (1)", False), ("n not between -1 and 300", False)]:
            wanted = Filter(" and ".join([part] * 33), {"n": "u8"})
            self.assertEqual(wanted.mask({"n": [1, None]}).to_list(), [is_true, False], part)
            self.assertEqual(wanted.may_match({"n": statistics([1], of="u8")}), is_true, part)

    def test_no_columns(self) -> None:
        source = random.Random(17)
        parts = [struct_of(source, (layout(source, "l", values, "a"),), len(values)) for values in ([1, 5], [], [None, 7])]
        for text, truth in [("true", True), ("false or null", False)]:
            wanted = Filter(text, {})
            self.assertEqual(wanted.mask({"a": range(10), "b": ["x"] * 10}).to_list(), [truth] * 10)
            self.assertEqual(wanted.mask({"a": column(list(range(10)))}).to_list(), [truth] * 10)
            self.assertEqual(wanted.mask({}).to_list(), [])
            self.assertEqual(wanted.mask([4, 3, None]).to_list(), [truth] * 3)
            self.assertEqual(wanted.mask(Chunks(parts[0], parts)).to_list(), [truth] * 4)
            self.assertEqual(Filter(text, {"a": "i64"}).mask({"a": range(10)}).to_list(), [truth] * 10)


if __name__ == "__main__":
    unittest.main()
