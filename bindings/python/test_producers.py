# SPDX-License-Identifier: Apache-2.0
"""Columns that others make: numpy's arrays, pandas' frames, and the Arrow streams of GDAL; and what these read of ours. What is not
installed is skipped.

GDAL 3.6 has no capsules yet: this file lends them over the structures that GDAL fills, and gives GDAL those that it is to read.
Memory and release are the maker's own.
"""

from __future__ import annotations

import ctypes
import datetime
import decimal
import gc
import unittest
from typing import Any

import consumer
import doqallin
from doqallin import Filter, cast, column, columns, row_keys, sort_rows, statistics, table
from producer import CArray, CSchema

try:
    import numpy
except ImportError:
    numpy = None
try:
    import pandas
except ImportError:
    pandas = None
try:
    from osgeo import gdal_array, ogr
except ImportError:
    ogr = None

EPOCH = datetime.date(1970, 1, 1)


@unittest.skipIf(numpy is None, "numpy is not installed")
class OfNumpy(unittest.TestCase):
    def test_integers(self) -> None:
        for name in ("int8", "uint8", "int16", "uint16", "int32", "uint32", "int64", "uint64"):
            data = numpy.arange(100, dtype=name)
            read_only = data.copy()
            read_only.flags.writeable = False
            for taken in (data, data[::3], data[10:20], data[::-1], data[:0], data.astype(f"<{data.dtype.str[1:]}"), read_only):
                self.assertEqual(column(taken).to_list(), taken.tolist())
                self.assertEqual(cast(taken, "u64").to_list(), taken.tolist())
        self.assertEqual(column(numpy.array([True, False])).to_list(), [True, False])

    def test_nothing_is_copied(self) -> None:
        data = numpy.arange(1000, dtype="i4")
        one = column(data)
        data[7] = -5
        self.assertEqual(one[7], -5)
        self.assertEqual(numpy.frombuffer(one.buffers()[2], "i4").ctypes.data, data.ctypes.data)

    def test_others_are_refused(self) -> None:
        for data, words in [
            (numpy.zeros((2, 2), "i8"), "2 dimensions"),
            (numpy.zeros((2, 2), "M8[s]"), "2 dimensions"),
            (numpy.zeros(3, "f2"), "float16 is not taken: cast it to float32"),
            (numpy.zeros(3, "g"), "a long double is not taken: cast it to float64"),
            (numpy.zeros(3, ">i8"), "another order"),
            (numpy.zeros(3, ">f8"), "another order"),
            (numpy.zeros(3, ">M8[s]"), "another order"),
            (numpy.zeros(3, "M8[h]"), "another unit"),
            (numpy.zeros(3, "M8[25s]"), "another unit"),
            (numpy.zeros(3, "m8[s]"), "durations are not taken"),
            (numpy.zeros(3, "c16"), "no column"),
            (numpy.array(["a"]), "no column"),
        ]:
            with self.assertRaisesRegex(doqallin.UnknownKind, words):
                column(data)

    def test_floats(self) -> None:
        for name in ("float32", "float64"):
            data = numpy.array([0.5, -0.0, numpy.nan, numpy.inf, 1e-310], dtype=name)
            for taken in (data, data[::2], data[::-1], data[:0]):
                self.assertEqual((column(taken).kind, column(taken).null_count), (f"f{name[5:]}", 0))
                self.assertEqual(list(map(repr, column(taken))), list(map(repr, taken.tolist())))
        numbers = numpy.random.default_rng(2).standard_normal(10_000)
        keys = row_keys([numbers])
        self.assertEqual(sorted(range(len(numbers)), key=keys.__getitem__), numpy.argsort(numbers, kind="stable").tolist())
        known = statistics(numbers)
        self.assertEqual((known.lower, known.upper), (numbers.min(), numbers.max()))
        mask = Filter("x > 0.25 and x <= 1.5", {"x": "f64"}).mask({"x": numbers})
        self.assertEqual(list(mask), ((numbers > 0.25) & (numbers <= 1.5)).tolist())

    def test_times(self) -> None:
        for unit in ("s", "ms", "us", "ns"):
            data = numpy.array(["2026-03-01T14:05:57", "NaT", "1969-12-31T23:59:59"], dtype=f"M8[{unit}]")
            for taken in (data, data[::2], data[::-1], data[:0]):
                wanted = [None if moment is None else moment for moment in taken.astype("M8[us]").tolist()]
                self.assertEqual((column(taken).kind, column(taken).to_list()), (f"timestamp({unit})", wanted))
            self.assertEqual(numpy.frombuffer(column(data).buffers()[2], "i8").ctypes.data, data.ctypes.data)
        days = numpy.array(["0001-01-01", "9999-12-31", "NaT", "2024-02-29"], dtype="M8[D]")
        self.assertEqual((column(days).kind, column(days).to_list()), ("date", days.tolist()))
        self.assertEqual(list(Filter("day < '2024-03-01'", {"day": "date"}).mask({"day": days})), [True, False, False, True])
        with self.assertRaises(doqallin.NotAValue) as error:
            column(numpy.array([0, 2**31], dtype="M8[D]"))
        self.assertEqual(error.exception.place, 1)

    def test_masked_arrays(self) -> None:
        for values in ([1, 2, 3], [0.5, numpy.nan, 1.5], numpy.array(["2026-03-01", "NaT", "2026-03-02"], dtype="M8[D]")):
            masked = numpy.ma.array(values, mask=[True, False, False])
            self.assertEqual(list(map(repr, column(masked))), ["None", *map(repr, list(column(numpy.array(values)))[1:])])
            self.assertEqual(column(masked[1:]), column(numpy.array(values)[1:]))

    def test_answers_are_read(self) -> None:
        made = cast([1, None, 3], "i32")
        self.assertEqual(numpy.frombuffer(made.buffers()[2], "i4").tolist(), [1, 0, 3])
        numbers = numpy.random.default_rng(1).integers(-(2**62), 2**62, 10_000)
        keys = row_keys([numbers])
        self.assertEqual(sorted(range(len(numbers)), key=keys.__getitem__), numpy.argsort(numbers, kind="stable").tolist())
        with self.assertRaises(doqallin.CannotCast) as error:
            cast(numbers, "i32")
        self.assertEqual(error.exception.place, int(numpy.argmax(abs(numbers) >= 2**31)))

    def test_it_goes_on_as_arrow_data(self) -> None:
        data = numpy.arange(1000, dtype="i4")
        array = consumer.take(column(data[3:]).__arrow_c_array__()[1], CArray)
        self.assertEqual(array.buffers[1], data[3:].ctypes.data)
        data[7] = -5
        del data
        self.assertEqual(consumer.items("i", array)[4], (-5).to_bytes(4, "little", signed=True))
        consumer.release(array)

    def test_the_order_of_rows(self) -> None:
        source = numpy.random.default_rng(3)
        wide, narrow = source.integers(-(2**63), 2**63 - 1, 100_000), source.integers(0, 9, 100_000, dtype="u1")
        halves = source.integers(-20, 20, 100_000) / 2
        towns = numpy.array(["Oslo", "Bergen", "Å", "Trondheim og omegn, i vest", "Trondheim og omegn, i øst"])[source.integers(0, 5, 100_000)]
        for given in ([wide], [narrow], [halves], [narrow, wide], [narrow, halves, wide], [towns, narrow], [halves, towns], [towns]):
            order = sort_rows([part.tolist() if part is towns else part for part in given])
            self.assertEqual((order.kind, list(order)), ("i64", numpy.lexsort(given[::-1]).tolist()))
        self.assertTrue((wide[sort_rows([wide])] == numpy.sort(wide)).all())

    def test_arrays_of_columns(self) -> None:
        for form in ("u1", "i1", "u2", "i2", "u4", "i4", "u8", "i8", "f4", "f8"):
            data = numpy.arange(50).astype(form)
            found = numpy.asarray(column(data)[7:])
            self.assertEqual((found.dtype, found.ctypes.data, found.tolist()), (data.dtype, data[7:].ctypes.data, data[7:].tolist()))
            self.assertEqual(numpy.asarray(column(data), "f8").tolist(), data.tolist())
            self.assertNotEqual(numpy.array(column(data)).ctypes.data, data.ctypes.data)
        data = numpy.arange(1000)
        mask = Filter("x >= 300 and x < 600", {"x": "i64"}).mask({"x": data})
        self.assertEqual(data[mask].tolist(), list(range(300, 600)))
        for start in range(20):
            self.assertEqual(data[start:][mask[start:]].tolist(), list(range(300, 600)))
            self.assertEqual((numpy.asarray(mask[start:]).dtype, numpy.asarray(mask[start:start]).tolist()), (bool, []))
        for values, of in [(["a", None, "bc"], None), ([1, None], "i8"), ([True, None], None), ([None, None], None), ([EPOCH, EPOCH], None), ([], "utf8"), ([b"ab", b"cd"], None)]:
            found = numpy.asarray(column(values, of))
            self.assertEqual((found.dtype, found.tolist()), (object, values))


@unittest.skipIf(pandas is None, "pandas is not installed")
class OfPandas(unittest.TestCase):
    def frame(self) -> Any:
        days = pandas.date_range("2026-01-01", periods=3000, freq="h")
        return pandas.DataFrame({"day": days, "fare": range(3000), "small": numpy.arange(3000, dtype="i2"), "late": days.hour > 20})

    def test_columns_of_a_frame(self) -> None:
        frame = self.frame()
        table = columns(frame)
        kinds = {"day": "timestamp(ns)", "fare": "i64", "small": "i16", "late": "bool"}
        self.assertEqual({name: one.kind for name, one in table.items()}, kinds)
        for name, one in table.items():
            self.assertEqual(one.to_list(), frame[name].tolist())
        keys = row_keys({"late": table["late"], "small": table["small"]}, descending=[True, False])
        wanted = frame.sort_values(["late", "small"], ascending=[False, True]).index.to_list()
        self.assertEqual(sorted(range(3000), key=keys.__getitem__), wanted)
        mask = Filter("day >= '2026-02-01 00:00' and late = true", {"day": "timestamp(ns)", "late": "bool"}).mask(frame)
        self.assertEqual(list(mask), ((frame["day"] >= "2026-02-01") & frame["late"]).tolist())

    def test_the_order_of_a_frame(self) -> None:
        frame = self.frame().sample(frac=1, random_state=1)
        frame["part"] = numpy.where(frame["fare"] % 7 == 0, numpy.nan, frame["fare"] % 5 / 2)
        order = sort_rows(frame[["late", "part"]], descending=[True, False], nulls_first=False)
        wanted = frame.sort_values("part", kind="stable").sort_values("late", ascending=False, kind="stable")
        self.assertTrue(frame.iloc[order].equals(wanted))

    def test_it_reads_what_comes_out(self) -> None:
        if not hasattr(pandas.DataFrame, "from_arrow"):
            self.skipTest("this pandas takes no Arrow data")
        made = table({"fare": [1, None, 3], "city": ["Oslo", None, ""]})
        frame = pandas.DataFrame.from_arrow(made)
        self.assertEqual({name: columns(frame)[name].to_list() for name in made}, {name: list(one) for name, one in made.items()})

    # What pandas has, the kind that it is read as, and what a row holds.
    SERIES: dict[str, tuple[Any, str, list[Any]]] = {}
    if pandas is not None:
        moment = datetime.datetime(2026, 3, 1, 14)
        SERIES = {
            "floats": (pandas.Series([0.5, None, numpy.inf]), "f64", [0.5, None, numpy.inf]),
            "narrow floats": (pandas.Series([0.5, None, 2], dtype="f4"), "f32", [0.5, None, 2.0]),
            "ints with gaps": (pandas.Series([1, None, 3]), "f64", [1.0, None, 3.0]),
            "ints and NA": (pandas.Series([1, None, 2**62 + 1], dtype="Int64"), "i64", [1, None, 2**62 + 1]),
            "small ints and NA": (pandas.Series([1, None, 3], dtype="UInt8"), "u8", [1, None, 3]),
            "floats and NA": (pandas.Series([0.5, None, 3], dtype="Float32"), "f32", [0.5, None, 3.0]),
            "bools and NA": (pandas.Series([True, None, False], dtype="boolean"), "bool", [True, None, False]),
            "objects": (pandas.Series(["Oslo", None, numpy.nan]), "utf8", ["Oslo", None, None]),
            "strings": (pandas.Series(["Oslo", None, "Moss"], dtype="string"), "utf8", ["Oslo", None, "Moss"]),
            "categories": (pandas.Series(["Oslo", None, "Moss"], dtype="category"), "utf8", ["Oslo", None, "Moss"]),
            "times": (pandas.Series([moment, None, moment]), "timestamp(ns)", [moment, None, moment]),
            "zones": (pandas.Series([moment, None, moment]).dt.tz_localize("Europe/Oslo"), "timestamp(ns,UTC)", [datetime.datetime(2026, 3, 1, 13, tzinfo=datetime.timezone.utc), None, datetime.datetime(2026, 3, 1, 13, tzinfo=datetime.timezone.utc)]),
            "decimals": (pandas.Series([decimal.Decimal("1.50"), None, decimal.Decimal("NaN")]), "decimal(3,2)", [decimal.Decimal("1.50"), None, None]),
            "dates": (pandas.Series([EPOCH, None, EPOCH]), "date", [EPOCH, None, EPOCH]),
            "nothing": (pandas.Series([None, None, None], dtype=object), "null", [None, None, None]),
        }

    def test_each_series(self) -> None:
        frame = pandas.DataFrame({name: series for name, (series, _, _) in self.SERIES.items()})
        if not hasattr(frame, "__arrow_c_stream__"):
            found = columns(frame)
            self.assertEqual({name: (one.kind, one.to_list()) for name, one in found.items()}, {name: told for name, (_, *told) in ((name, (part, kind, rows)) for name, (part, kind, rows) in self.SERIES.items()) for told in [tuple(told)]})
        for name, (series, kind, rows) in self.SERIES.items():
            if hasattr(series, "__arrow_c_stream__"):
                continue
            self.assertEqual((column(series).kind, column(series).to_list()), (kind, rows), name)
            self.assertEqual(column(series[::-1]).to_list(), rows[::-1], name)
            self.assertEqual(column(pandas.Index(series)).to_list(), rows, name)
            self.assertEqual(list(Filter("x is null", {"x": kind}).mask({"x": series})), [row is None for row in rows], name)

    def test_what_a_frame_has_else(self) -> None:
        frame = pandas.DataFrame({"fare": [12.5, None], "span": pandas.to_timedelta([1, 2], "s"), "odd": [[1], {}]})
        frame["when"] = pandas.PeriodIndex(["2026-01", "2026-02"], freq="M")
        frame["kinds"] = pandas.Series([1, 2], dtype="category")
        if hasattr(frame, "__arrow_c_stream__"):
            self.skipTest("this pandas lends Arrow data")
        self.assertEqual(list(Filter("fare > 12", {"fare": "f64?", "odd": "i64"}).mask(frame)), [True, False])
        known = statistics(frame)
        self.assertEqual((list(known), list(known.left_out)), (["fare"], ["span", "odd", "when", "kinds"]))
        self.assertEqual((known["fare"].null_count, known["fare"].upper), (1, 12.5))
        for name, words in [("span", "durations are not taken"), ("when", "period"), ("kinds", "categories of int64"), ("odd", "a list of dict and list")]:
            self.assertIn(words, known.left_out[name])
        with self.assertRaises(doqallin.UnknownKind):
            columns(frame)
        twice = pandas.DataFrame([[1, 2, 3]], columns=["a", "b", "a"])
        self.assertEqual(list(columns(twice, ["b"])["b"]), [2])
        with self.assertRaises(doqallin.NoColumn):
            columns(twice)
        self.assertEqual(list(Filter("true", {}).mask(frame)), [True, True])

    def test_a_frame_as_arrow_data(self) -> None:
        frame = self.frame()
        if not hasattr(frame, "__arrow_c_stream__"):
            self.skipTest("this pandas lends no Arrow data")
        table = columns(frame)
        self.assertEqual([table[name].to_list() for name in ("fare", "small", "late")], [frame[name].to_list() for name in ("fare", "small", "late")])
        self.assertEqual(columns(pandas.DataFrame({"x": [0.5]}))["x"].kind, "f64")


_new = ctypes.PYFUNCTYPE(ctypes.py_object, ctypes.c_void_p, ctypes.c_char_p, ctypes.c_void_p)(("PyCapsule_New", ctypes.pythonapi))


class Batch:
    """A batch of GDAL's, lent by capsules."""

    def __init__(self, stream: Any, array: Any):
        self.schema, self.array = stream.GetSchema(), array

    def __arrow_c_array__(self, requested_schema: object = None) -> tuple[object, object]:
        return _new(self.schema._getPtr(), b"arrow_schema", None), _new(self.array._getPtr(), b"arrow_array", None)


@unittest.skipIf(ogr is None, "GDAL is not installed")
class OfGdal(unittest.TestCase):
    # The fields of a layer, and the kinds of their columns.
    FIELDS = {
        "n": ("OFTInteger", "i32"),
        "big": ("OFTInteger64", "i64"),
        "city": ("OFTString", "utf8"),
        "data": ("OFTBinary", "binary"),
        "fare": ("OFTReal", "f64"),
        "day": ("OFTDate", "date"),
        "clock": ("OFTTime", "time(ms)"),
        "at": ("OFTDateTime", "timestamp(ms)"),
    }

    def row(self, row: int) -> tuple[Any, ...]:
        number = (row * 2654435761) % 2**32 - 2**31
        moment = datetime.datetime(1970, 1, 1) + datetime.timedelta(days=row, seconds=7 * row, milliseconds=125)
        fare = float("nan") if row % 50 == 0 else number / 64
        return number, number << 31, f"Ørsta {row}" * (row % 3), bytes([row % 256, 0]), fare, moment.date(), moment.time(), moment

    def rows(self) -> list[tuple[Any, ...]]:
        whole = [self.row(row) for row in range(1, 3001)]
        return [tuple(None if (row + place) % 7 == 0 else value for place, value in enumerate(part)) for row, part in enumerate(whole)]

    def layer(self) -> Any:
        source = ogr.GetDriverByName("Memory").CreateDataSource("")
        layer = source.CreateLayer("rides", geom_type=ogr.wkbNone)
        for name, (of, _) in self.FIELDS.items():
            layer.CreateField(ogr.FieldDefn(name, getattr(ogr, of)))
        flag = ogr.FieldDefn("flag", ogr.OFTInteger)
        flag.SetSubType(ogr.OFSTBoolean)
        layer.CreateField(flag)
        for row, values in enumerate(self.rows()):
            feature = ogr.Feature(layer.GetLayerDefn())
            for place, value in enumerate(values):
                if isinstance(value, (datetime.date, datetime.time)):
                    date = value.timetuple()[:3] if isinstance(value, datetime.date) else (0, 0, 0)
                    clock = value if isinstance(value, (datetime.time, datetime.datetime)) else datetime.time()
                    feature.SetField(place, *date, clock.hour, clock.minute, clock.second + clock.microsecond / 10**6, 0)
                elif isinstance(value, bytes):
                    feature.SetFieldBinaryFromHexString(place, value.hex())
                elif value is not None:
                    feature.SetField(place, value)
            feature.SetField("flag", row % 2)
            layer.CreateFeature(feature)
        return source, layer

    def test_it_reads_what_comes_out(self) -> None:
        rows = [values[:2] + values[4:] for values in self.rows()]
        fields = [(name, of) for name, (_, of) in self.FIELDS.items() if name not in ("city", "data")]
        whole = {name: column(list(part), "time(us)" if name == "clock" else of) for (name, of), part in zip(fields, zip(*rows))}
        known = Filter("fare >= 1000.5", {"fare": "f64?"}).mask(whole)
        # Where an array has an offset, GDAL 3.6 reads the nulls from there on, and the values from the first.
        made = table({**whole, "known": known})
        schema = consumer.take(made.__arrow_c_schema__(), CSchema)
        batches = consumer.Batches(made.__arrow_c_stream__())
        array = batches.next()
        found = gdal_array._RecordBatchAsNumpy(ctypes.addressof(array), ctypes.addressof(schema), [array, schema])
        self.assertEqual(list(found), list(made))
        for name, part in found.items():
            data, mask = (part["data"], part["mask"]) if isinstance(part, dict) else (part, numpy.zeros(len(part), bool))
            values = [None if is_null else value for value, is_null in zip(data.tolist(), mask)]
            self.assertTrue(list(map(repr, values)) == list(map(repr, made[name])), name)
        del found, part, data
        for structure in (array, schema, batches.stream):
            consumer.release(structure)

    def test_a_layer(self) -> None:
        source, layer = self.layer()
        stream = layer.GetArrowStream(["INCLUDE_FID=NO", "MAX_FEATURES_IN_BATCH=1000"])
        found: dict[str, list[Any]] = {}
        wanted = Filter("fare >= 1000.5 and day < '1975-01-01' and clock > '00:30'", {name: of for name, (_, of) in self.FIELDS.items()})
        matches: list[bool] = []
        batches = 0
        while (array := stream.GetNextRecordBatch()) is not None:
            table = columns(Batch(stream, array))
            kinds = {name: one.kind for name, one in table.items()}
            self.assertEqual(kinds, {**{name: of for name, (_, of) in self.FIELDS.items()}, "flag": "bool"})
            for name, one in table.items():
                found.setdefault(name, []).extend(one)
            keys = row_keys(table, nulls_first=False)
            self.assertEqual(len(set(keys)), len(table["n"]))
            matches.extend(wanted.mask(table))
            batches += 1
            del table, one, array
            gc.collect()
        rows = self.rows()
        for name, values in zip(self.FIELDS, zip(*rows)):
            self.assertTrue(list(map(repr, found[name])) == list(map(repr, values)), name)
        self.assertEqual((batches, found["flag"]), (3, [bool(row % 2) for row in range(3000)]))
        late = datetime.time(0, 30)

        def matched(fare: Any, day: Any, clock: Any) -> bool:
            # NaN is above each number.
            return None not in (fare, day, clock) and not fare < 1000.5 and day < datetime.date(1975, 1, 1) and clock > late

        self.assertEqual(matches, [matched(*row[4:7]) for row in rows])
        self.assertGreater(sum(matches), 100)


if __name__ == "__main__":
    unittest.main()
