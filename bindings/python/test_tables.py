# SPDX-License-Identifier: Apache-2.0
"""Tables of files: the same rows by columns as by records, in each kind; and what their memory is.

There are 500 files, or as many as a 200th of what DOQALLIN_COUNT says.
"""

import ctypes
import gc
import io
import os
import random
import struct
import tempfile
import tracemalloc
import unittest
import unittest.mock
from datetime import date, datetime, timedelta, timezone
from decimal import Decimal
from pathlib import Path

import consumer
import doqallin
import doqallin._files
import doqallin._searches
from doqallin import BadFilter, BadRecord, NoColumn, NotAValue
from doqallin._export import _in_capsules, _lent
from producer import CArray, CSchema, CStream

COUNT = max(1, int(os.environ.get("DOQALLIN_COUNT") or 100_000) // 200)
UNITS = {"s": 10**6, "ms": 10**3, "us": 1, "ns": 1}


def integer(chance, kind):
    bits = int(kind[1:])
    least = 0 if kind[0] == "u" else -(2 ** (bits - 1))
    value = chance.choice([least, least + 2**bits - 1, chance.randrange(least, least + 2**bits), chance.randrange(100)])
    return value, str(value)


def floating(chance, kind):
    value = chance.choice([0.0, 1.5, -1e300 if kind == "f64" else -1e30, float("inf"), float("-inf"), float("nan"), chance.uniform(-1e6, 1e6)])
    value = value if kind == "f64" else struct.unpack("<f", struct.pack("<f", value))[0]
    return value, repr(value)


def decimal(chance, kind):
    precision, scale = map(int, kind[8:-1].split(","))
    value = Decimal(chance.choice([-1, 1]) * chance.randrange(10 ** chance.randrange(1, precision + 1))).scaleb(-scale)
    return value, f"{value:f}"


def day(chance, kind):
    value = date.fromordinal(chance.choice([1, 3652059, 719163, chance.randrange(1, 3652060)]))
    return value, value.isoformat()


def moment(chance, kind):
    """A timestamp of the kind's unit, in the years that all units count."""
    unit = UNITS[kind[kind.index("(") + 1 : -1].partition(",")[0]]
    value = datetime(1970, 1, 1) + timedelta(microseconds=chance.randrange(-(2**61) // 1000, 2**61 // 1000) // unit * unit)
    word = value.isoformat(sep=chance.choice(" T"))
    if "," not in kind:
        return value, word
    hours = chance.randrange(-12, 13)
    return (value - timedelta(hours=hours)).replace(tzinfo=timezone.utc), word + (f"{hours:+03}:00" if hours else chance.choice(["Z", "+00:00"]))


def clock(chance, kind):
    value = (datetime.min + timedelta(microseconds=chance.randrange(86_400 * 10**6) // UNITS[kind[5:-1]] * UNITS[kind[5:-1]])).time()
    return value, value.isoformat()


def string(chance, kind):
    value = "".join(chance.choices('aß"",\n\r€𝄞 x', k=chance.randrange(8)))
    return value, '"' + value.replace('"', '""') + '"'


def raw(chance, kind):
    value = bytes(chance.choices(range(256), k=chance.randrange(6)))
    if kind == "binary":
        return value, f'"{value.hex()}"'
    return value, '"' + value.replace(b'"', b'""').decode("latin-1") + '"'


KINDS = {
    **{kind: integer for kind in ("i8", "i16", "i32", "i64", "u8", "u16", "u32", "u64")},
    **{kind: floating for kind in ("f32", "f64")},
    **{kind: decimal for kind in ("decimal(1,0)", "decimal(9,9)", "decimal(18,2)", "decimal(38,7)")},
    **{f"time({unit})": clock for unit in UNITS},
    **{f"timestamp({unit}{zone})": moment for unit in UNITS for zone in ("", ",UTC")},
    "date": day,
    "utf8": string,
    "bytes": raw,
    "binary": raw,
}


def random_file(chance, kinds, count):
    """The rows of a file, and their records. In front of each row is its number."""
    rows, records = [], []
    for number in range(count):
        values, words = [number], [str(number)]
        for kind in kinds:
            value, word = (None, "") if kind[-1] == "?" and chance.random() < 0.2 else KINDS[kind.rstrip("?")](chance, kind.rstrip("?"))
            values.append(value)
            words.append(word)
        rows.append(values)
        records.append(",".join(words).encode("latin-1" if any(kind.startswith("bytes") for kind in kinds) else "utf-8") + chance.choice([b"\n", b"\r\n"]))
    return rows, records


def random_filter(chance, kinds, rows):
    """A filter of one or two conditions, of values that the file has."""

    def condition():
        place = chance.randrange(len(kinds) + 1)
        value = chance.choice(rows)[place] if rows else None
        if value is None or chance.random() < 0.2:
            return f"c{place} is {chance.choice(['', 'not '])}null"
        return f"c{place} {chance.choice(['=', '<', '<=', '>', '>=', '<>'])} {doqallin.literal(value)}"

    return chance.choice(["true", condition(), condition(), f"{condition()} and {condition()}", f"{condition()} or {condition()}", "c0 < 0"])


def kind_in_memory(kind):
    return kind.rstrip("?").replace("bytes", "binary")


class ByColumns(unittest.TestCase):
    def setUp(self):
        folder = tempfile.TemporaryDirectory()
        self.addCleanup(folder.cleanup)
        self.path = Path(folder.name) / "file.csv"

    def see(self, files, kinds, rows, asked, chance):
        """Sees that columns, by a table and by batches, have the rows of the records that match."""
        records = list(files.records(asked))
        wanted = [rows[int(record.partition(b",")[0])] for record in records]
        names = [f"c{place}" for place in range(len(kinds) + 1)]
        columns = chance.choice([None, chance.sample(names, chance.randrange(1, len(names) + 1))])
        shown = columns or names
        known = dict(zip(names, [doqallin.column([row[place] for row in wanted], kind_in_memory(kind)) for place, kind in enumerate(["i64", *kinds])]))
        found = files.find(asked, columns)
        self.assertEqual((found.num_rows, found.column_names), (len(wanted), shown))
        for name in shown:
            self.assertEqual(found[name], known[name])
            self.assertEqual(found[name].null_count, known[name].null_count)
        most = chance.choice([1, 3, 64, 1000])
        batches = list(files.batches(asked, columns, most))
        self.assertEqual([batch.num_rows for batch in batches], [most] * (len(wanted) // most) + [len(wanted) % most] * (len(wanted) % most > 0))
        start = 0
        for batch in batches:
            for name in shown:
                self.assertEqual(batch[name], known[name][start : start + batch.num_rows])
            start += batch.num_rows
        head = files.head(5, asked, columns)
        for name in shown:
            self.assertEqual(head[name], known[name][:5])
        self.assertEqual(files.find(asked, []).num_rows, files.count(asked))

    def test_the_same_rows_as_by_records(self):
        for seed in range(COUNT):
            chance = random.Random(seed)
            kinds = [chance.choice(list(KINDS)) + chance.choice(["", "?"]) for _ in range(chance.randrange(1, 5))]
            if any(kind.startswith("bytes") for kind in kinds):
                # Bytes that are no UTF-8 stand beside no string.
                kinds = [kind for kind in kinds if not kind.startswith("utf8")]
            rows, records = random_file(chance, kinds, chance.choice([0, 1, 9, 60]))
            text, columns = b"".join(records), {f"c{place}": kind for place, kind in enumerate(["i64", *kinds])}
            asked = random_filter(chance, kinds, rows)
            with self.subTest(seed=seed, kinds=kinds, asked=asked):
                with unittest.mock.patch.object(doqallin._files, "_PIECE", chance.choice([7, 500, 4 << 20])), unittest.mock.patch.object(doqallin._searches, "_FOUND", chance.choice([1, 8, 4096])):
                    with doqallin.open(io.BytesIO(text), columns=columns) as files:
                        self.see(files, kinds, rows, asked, chance)
                    if seed % 2:
                        self.path.write_bytes(text)
                        with doqallin.index(self.path, columns=columns, rows=chance.choice([1, 4, 1000]), progress=False) as files:
                            self.see(files, kinds, rows, asked, chance)

    def test_each_kind(self):
        for kind in KINDS:
            for of in (kind, kind + "?"):
                chance = random.Random(of)
                rows, records = random_file(chance, [of], 50)
                with self.subTest(of), doqallin.open(io.BytesIO(b"".join(records)), columns={"c0": "i64", "c1": of}) as files:
                    self.see(files, [of], rows, "true", chance)
                    self.assertEqual(files.find()["c1"].kind, kind_in_memory(of))
                    self.assertEqual(files.find("c0 < 0")["c1"].kind, kind_in_memory(of))
                    self.assertEqual(files.find("c0 < 0").to_pydict(), {"c0": [], "c1": []})

    def test_words_that_are_nulls(self):
        text = b'1,NA,"NA"\n2,,""\n3,"x",-\n4,y\n5,1_0,z,more\n'
        kinds = {"n": "i64?", "a": "utf8?", "b": "utf8?"}
        files = doqallin.open(io.BytesIO(text), columns=kinds, nulls=["NA", "-"], lenient=True)
        self.assertEqual(files.find().to_pydict(), {"n": [1, 2, 3, 4, 5], "a": [None, None, "x", "y", "1_0"], "b": ["NA", "", None, None, "z"]})
        self.assertEqual(files.find("b is null", columns=["B", "N"]).to_pydict(), {"b": [None, None], "n": [3, 4]})
        lenient = doqallin.open(io.BytesIO(text), columns={"n": "i64?", "a": "i8?", "b": "date?"}, nulls=["NA"], lenient=True)
        self.assertEqual(lenient.find("n > 1").to_pydict(), {"n": [2, 3, 4, 5], "a": [None] * 4, "b": [None] * 4})

    def test_what_python_does_not_have(self):
        text = b"2026-03-01 00:00:00.000000001,0001-01-01\n"
        found = doqallin.open(io.BytesIO(text), columns={"at": "timestamp(ns)", "day": "date"}).find()
        with self.assertRaises(NotAValue):
            found["at"].to_list()
        self.assertEqual(int.from_bytes(found["at"].buffers()[2], "little"), 1772323200 * 10**9 + 1)
        self.assertEqual(found["day"].to_list(), [date(1, 1, 1)])

    def test_a_record_that_is_refused(self):
        kinds = {"n": "i64", "word": "utf8"}
        for many in (3, 5000):
            text = b"1,a\n" + b"2,b\n" * many + b"x,c\n3,d\n"
            for asked, before in [("n > 1", many), ("true", many + 1)]:
                files = doqallin.open(io.BytesIO(text), columns=kinds)
                counts = []
                with self.assertRaises(BadRecord) as bad:
                    for batch in files.batches(asked, rows=1000):
                        counts.append(batch.num_rows)
                self.assertEqual((sum(counts), bad.exception.place, bad.exception.column), (before, 4 + 4 * many, "n"))
                with self.assertRaises(BadRecord):
                    files.find(asked)
                self.assertEqual(files.head(2, asked).num_rows, 2)

    def test_what_is_wrong(self):
        files = doqallin.open(io.BytesIO(b"1,a\n2,b\n"), columns={"n": "i64", "word": "utf8"})
        for columns in (["none"], ["n", "none"]):
            with self.assertRaises(NoColumn):
                files.find(columns=columns)
        with self.assertRaises(TypeError):
            files.find(columns="n")
        with self.assertRaises(BadFilter):
            list(files.batches("n ="))
        with self.assertRaises(ValueError):
            list(files.batches(rows=0))
        twice = doqallin.open(io.BytesIO(b"1,2\n"), columns={"n": "i64", "N": "i64"})
        self.assertEqual(twice.find(columns=["N"]).to_pydict(), {"N": [2]})


class OfMemory(unittest.TestCase):
    def test_batches_take_as_much_for_long_files(self):
        """Ten times as many rows take no more memory: what is kept is a piece of the file, and a batch."""
        record, peaks = b"123456,some word or other\n", []
        for many in (40_000, 400_000):
            source = io.BytesIO(record * many)
            with unittest.mock.patch.object(doqallin._files, "_PIECE", 1 << 18), doqallin.open(source, columns={"n": "i64", "word": "utf8"}) as files:
                count = sum(batch.num_rows for batch in files.batches("n > 0", rows=4096))
                gc.collect()
                tracemalloc.start()
                count = sum(batch.num_rows for batch in files.batches("n > 0", rows=4096))
                peaks.append(tracemalloc.get_traced_memory()[1])
                tracemalloc.stop()
            self.assertEqual(count, many)
        self.assertLess(peaks[1], 1.2 * peaks[0])
        self.assertLess(peaks[1], 8 << 20)

    def test_columns_are_no_longer_than_they_are(self):
        text = b"".join(b"%d,%s\n" % (n, b"x" * 100) for n in range(10_000))
        found = doqallin.open(io.BytesIO(text), columns={"n": "i64", "word": "utf8?"}).find("n < 10")
        self.assertEqual([len(part or b"") for part in found["word"].buffers()], [0, 88, 1000])
        self.assertEqual([len(part or b"") for part in found["n"].buffers()], [0, 0, 80])

    def test_each_capsule_is_released_once(self):
        """Taken, taken in part, and never taken."""
        text = b"".join(b"%d,%s\n" % (n, b"" if n % 3 == 0 else b"word") for n in range(100))
        files = doqallin.open(io.BytesIO(text), columns={"n": "i64", "word": "utf8?"})
        for batch in files.batches("n > 10", rows=7):
            stream = consumer.take(batch.__arrow_c_stream__(), CStream)
            schema, chunks = CSchema(), CArray()
            self.assertEqual(stream.get_schema(ctypes.byref(stream), ctypes.byref(schema)), 0)
            self.assertEqual(stream.get_next(ctypes.byref(stream), ctypes.byref(chunks)), 0)
            wanted, lent = batch.to_pydict(), [chunks.children[place].contents for place in range(2)]
            consumer.release(stream)
            del batch
            gc.collect()
            self.assertEqual([int.from_bytes(item, "little") for item in consumer.items("l", lent[0])], wanted["n"])
            self.assertEqual(consumer.items("U", lent[1]), [word and word.encode() for word in wanted["word"]])
            for structure in (schema, chunks):
                consumer.release(structure)
        found = files.find("n > 10")
        found.__arrow_c_stream__()
        found["n"].__arrow_c_array__()
        gc.collect()
        self.assertEqual((_lent, _in_capsules), ({}, {}))


if __name__ == "__main__":
    unittest.main()
