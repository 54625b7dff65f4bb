# SPDX-License-Identifier: Apache-2.0
"""Columns of floats, decimals, dates, times and timestamps: from Arrow, buffers and lists, with their statistics, keys and filters,
beside plain Python. Of floats NaN is equal to itself and above infinity, and both zeros are equal.

There are 2,500 columns of each kind, or a fortieth of what DOQALLIN_COUNT says.
"""

from __future__ import annotations

import array
import math
import pickle
import random
import struct
import unittest
from collections.abc import Callable
from datetime import date, datetime, time, timedelta, timezone
from decimal import Decimal
from typing import Any

import doqallin
import producer
from doqallin import Filter, Statistics, TableStatistics, column, columns, from_row_keys, literal, row_keys, statistics
from producer import Chunks, Layout, layout, struct_of
from test_columns import COUNT, Released

EPOCH = datetime(1970, 1, 1)
UNITS = {"s": 1, "m": 10**3, "u": 10**6, "n": 10**9}
WORDS = {"s": "s", "m": "ms", "u": "us", "n": "ns"}
OSLO = timezone(timedelta(hours=1))


class Kind:
    """A kind of column: its Arrow format, its word, the bytes of an item, and how a value comes from the number of an item."""

    def __init__(self, form: str, word: str, width: int, least: int, greatest: int, value: Callable[[int], Any]) -> None:
        self.form, self.word, self.width, self.least, self.greatest, self.value = form, word, width, least, greatest, value

    def item(self, source: random.Random) -> bytes:
        near = source.randint(max(self.least, -9), min(self.greatest, 9))
        number = source.choice([self.least, self.greatest, source.randint(self.least, self.greatest), near])
        return self.packed(number)

    def packed(self, number: int) -> bytes:
        return number.to_bytes(self.width, "little", signed=True)

    def read(self, item: bytes) -> Any:
        return self.value(int.from_bytes(item, "little", signed=True))


class Floats(Kind):
    SPECIAL = (0.0, -0.0, 1.0, -1.0, 1e-310, -1e-310, 5e-324, 1e-45, math.inf, -math.inf, math.nan, -math.nan, 0.1)

    def item(self, source: random.Random) -> bytes:
        form = "<f" if self.width == 4 else "<d"
        return source.choice([source.randbytes(self.width), struct.pack(form, source.choice(self.SPECIAL)), struct.pack(form, source.randint(-9, 9))])

    def read(self, item: bytes) -> float:
        return struct.unpack("<f" if self.width == 4 else "<d", item)[0]


def _seconds(moment: datetime) -> int:
    return (moment - EPOCH) // timedelta(seconds=1)


def _moments() -> list[Kind]:
    """Timestamps of each unit, without a zone and with two names of one, as far as Python has them."""
    found = []
    for unit, count in UNITS.items():
        least, greatest = (_seconds(datetime(1, 1, 1)), _seconds(datetime(9999, 12, 31))) if unit != "n" else (-(2**63) // 10**9 + 1, 2**63 // 10**9 - 1)
        # Python has no nanoseconds.
        step = 1000 if unit == "n" else 1
        for zone in ("", "UTC", "Europe/Oslo"):
            tzinfo = timezone.utc if zone else None
            value = lambda number, count=count, step=step, tzinfo=tzinfo: (EPOCH + timedelta(microseconds=number * step * 10**6 // count)).replace(tzinfo=tzinfo)
            kind = Kind(f"ts{unit}:{zone}", f"timestamp({WORDS[unit]}{',UTC' if zone else ''})", 8, least * count // step, greatest * count // step, value)
            kind.packed = lambda number, step=step: (number * step).to_bytes(8, "little", signed=True)  # type: ignore[method-assign]
            kind.read = lambda item, value=value, step=step: value(int.from_bytes(item, "little", signed=True) // step)  # type: ignore[method-assign]
            found.append(kind)
    return found


def _times() -> list[Kind]:
    found = []
    for unit, width in {"s": 4, "m": 4, "u": 8, "n": 8}.items():
        step, count = (1000 if unit == "n" else 1), UNITS[unit]
        value = lambda number, count=count, step=step: (EPOCH + timedelta(microseconds=number * step * 10**6 // count)).time()
        kind = Kind(f"tt{unit}", f"time({WORDS[unit]})", width, 0, 86_400 * count // step - 1, value)
        kind.packed = lambda number, step=step, width=width: (number * step).to_bytes(width, "little", signed=True)  # type: ignore[method-assign]
        kind.read = lambda item, value=value, step=step: value(int.from_bytes(item, "little", signed=True) // step)  # type: ignore[method-assign]
        found.append(kind)
    return found


def _decimals() -> list[Kind]:
    found = []
    for width, precision, scale in [(4, 9, 2), (4, 1, 1), (8, 18, 18), (8, 10, 2), (16, 10, 2), (16, 38, 9), (16, 19, 0), (16, 38, 38)]:
        value = lambda number, scale=scale: Decimal((number < 0, tuple(map(int, str(abs(number)))), -scale))
        form = f"d:{precision},{scale}" + ("" if width == 16 else f",{8 * width}")
        found.append(Kind(form, f"decimal({precision},{scale})", width, 1 - 10**precision, 10**precision - 1, value))
    return found


_days = (date(1, 1, 1) - EPOCH.date()).days, (date(9999, 12, 31) - EPOCH.date()).days
KINDS: list[Kind] = [
    Floats("f", "f32", 4, 0, 0, float),
    Floats("g", "f64", 8, 0, 0, float),
    Kind("tdD", "date", 4, *_days, lambda day: EPOCH.date() + timedelta(days=day)),
    Kind("tdm", "timestamp(ms)", 8, _days[0] * 86_400_000, _days[1] * 86_400_000, lambda number: EPOCH + timedelta(milliseconds=number)),
    *_times(),
    *_moments(),
    *_decimals(),
]


def some_items(source: random.Random, kind: Kind, most: int = 12) -> list[bytes | None]:
    share = source.choice([0, 0, 0.2, 1])
    return [None if source.random() < share else kind.item(source) for _ in range(source.randrange(most))]


def read(kind: Kind, items: list[bytes | None]) -> list[Any]:
    return [None if item is None else kind.read(item) for item in items]


def laid_out(source: random.Random, kind: Kind, items: list[bytes | None], name: str = "") -> Layout:
    return layout(source, kind.form, items, name, kind.width)


def order(value: Any) -> Any:
    """How values sort: of floats NaN is the greatest."""
    return (value != value, 0 if value != value else value) if isinstance(value, float) else value


def told(value: Any) -> str:
    """A value as it comes back from keys and statistics: a zero has no sign, and all NaNs are one."""
    return repr(value + 0.0 if isinstance(value, float) else value)


class OfArrow(Released):
    def test_each_kind(self) -> None:
        for seed, kind in enumerate(KINDS):
            source = random.Random(seed)
            for _ in range(COUNT // 5):
                items = some_items(source, kind)
                found, values = column(laid_out(source, kind, items)), read(kind, items)
                self.assertEqual((found.kind, list(map(repr, found))), (kind.word, list(map(repr, values))), kind.form)
                self.assertEqual([repr(found[row]) for row in range(len(found))], list(map(repr, values)))
                self.assertEqual(column(laid_out(source, kind, items), kind.word + "?"), found)
                del found

    def test_statistics(self) -> None:
        for seed, kind in enumerate(KINDS):
            source = random.Random(seed)
            for _ in range(COUNT // 5):
                parts = [some_items(source, kind) for _ in range(2)]
                values = read(kind, parts[0] + parts[1])
                each = [statistics(laid_out(source, kind, part), source.choice([0, 16])) for part in parts]
                found = each[0] | each[1]
                present = sorted((value for value in values if value is not None), key=order)
                self.assertEqual((found.kind, found.row_count, found.null_count), (kind.word, len(values), values.count(None)))
                self.assertEqual((found.lower_is_exact, found.upper_is_exact), (bool(present), bool(present)))
                if present:
                    self.assertEqual((told(found.lower), told(found.upper)), (told(present[0]), told(present[-1])), kind.form)
                    self.assertEqual(statistics(values, of=kind.word), found)
                self.assertEqual((Statistics.from_bytes(bytes(found), kind.word), pickle.loads(pickle.dumps(found))), (found, found))
                whole = statistics(Chunks(laid_out(source, kind, []), [laid_out(source, kind, part) for part in parts]))
                self.assertEqual(whole, found)

    def test_keys(self) -> None:
        for seed, kind in enumerate(KINDS):
            source = random.Random(seed)
            for _ in range(COUNT // 5):
                items = some_items(source, kind)
                values = read(kind, items)
                down = source.random() < 0.5
                keys = row_keys([laid_out(source, kind, items)], descending=down)
                by_key = [values[row] for row in sorted(range(len(values)), key=keys.__getitem__)]
                wanted = sorted(filter(lambda value: value is not None, values), key=order, reverse=down)
                self.assertEqual([told(value) for value in by_key], [told(None)] * values.count(None) + list(map(told, wanted)), kind.form)
                (back,) = from_row_keys(keys, [kind.word], descending=down)
                self.assertEqual((back.kind, list(map(told, back))), (kind.word, list(map(told, values))))

    def test_filters(self) -> None:
        for seed, kind in enumerate(KINDS):
            source = random.Random(seed)
            for _ in range(COUNT // 5):
                items = some_items(source, kind)
                values = read(kind, items)
                bound = kind.read(source.choice([*filter(None, items), kind.item(source)]))
                sign, compare = source.choice(list(COMPARISONS.items()))
                wanted = Filter(f"x {sign} {literal(bound)}", {"x": kind.word + "?"})
                matches = [value is not None and compare(order(value), order(bound)) for value in values]
                table = struct_of(source, (laid_out(source, kind, items, "x"), Layout("e", [], 0, 0, 0, "odd")), len(items))
                self.assertEqual(list(wanted.mask(table)), matches, (kind.form, wanted, values))
                self.assertEqual(list(wanted.mask({"x": values, "odd": object()})), matches)
                known = statistics(table)
                outcomes = wanted.outcomes(known)
                self.assertTrue(doqallin.Outcomes.MAY_BE_TRUE in outcomes or not any(matches))
                self.assertTrue(outcomes != doqallin.Outcomes.MAY_BE_TRUE or all(matches))
                self.assertEqual(known.left_out, {"odd": "column 'odd': float16 is not taken: cast it to float32, as by .cast('float32') (e)"})

    def test_numbers_that_are_no_values(self) -> None:
        source = random.Random(1)
        decimal = {kind.form: kind for kind in _decimals()}
        for kind, numbers in [
            (Kind("tts", "time(s)", 4, 0, 0, int), [-1, 86_400]),
            (Kind("ttm", "time(ms)", 4, 0, 0, int), [-1, 86_400_000]),
            (Kind("ttu", "time(us)", 8, 0, 0, int), [-1, 86_400_000_000]),
            (Kind("ttn", "time(ns)", 8, 0, 0, int), [-1, 86_400_000_000_000]),
            (Kind("tdD", "date", 4, 0, 0, int), [-4_371_588, 2_932_897]),
            (Kind("tss:", "timestamp(s)", 8, 0, 0, int), [-377_705_116_801, 253_402_300_800]),
            (Kind("tsu:x", "timestamp(us,UTC)", 8, 0, 0, int), [-(2**63), 2**63 - 1]),
            (decimal["d:9,2,32"], [-(10**9), 10**9]),
            (decimal["d:10,2,64"], [-(10**10), 10**10]),
            (decimal["d:38,9"], [-(10**38), 10**38, -(2**127)]),
        ]:
            for number in numbers:
                good = kind.packed(0)
                for row in range(3):
                    items = [None, good, good]
                    items[row] = kind.packed(number)
                    for call in (
                        lambda one: statistics(one),
                        lambda one: row_keys([one]),
                        lambda one: Filter("x is null", {"x": kind.word}).mask({"x": column(one)}),
                    ):
                        with self.assertRaises(doqallin.NotAValue) as error:
                            call(laid_out(source, kind, items))
                        self.assertEqual(error.exception.place, row)
                        del error
                # No answer depends on the values under nulls.
                hidden = Layout(kind.form, [b"\x02", kind.packed(number) + good], 0, 2, 1)
                self.assertEqual(statistics(hidden).null_count, 1)

    def test_what_python_does_not_have(self) -> None:
        source = random.Random(2)
        for form, width, number, shown in [
            ("tdD", 4, -719_163, "<-719163>"),
            ("tsn:", 8, 1, "<1>"),
            ("ttn", 8, 1500, "<1500>"),
            ("tss:UTC", 8, -62_135_596_801, "<-62135596801>"),
        ]:
            one = column(layout(source, form, [None, number.to_bytes(width, "little", signed=True)], "", width))
            for call in (one.to_list, lambda: one[1], lambda: statistics(one).lower):
                with self.assertRaises(doqallin.NotAValue) as error:
                    call()
                self.assertEqual(error.exception.item, number)
                del error
            self.assertEqual(repr(one), f"Column({one.kind!r}, [None, {shown}])")
            self.assertIn(f"lower={shown}", repr(statistics(one)))
            self.assertEqual(list(Filter("x is not null", {"x": one.kind}).mask({"x": one})), [False, True])
            del one, call


COMPARISONS: dict[str, Callable[[Any, Any], bool]] = {
    "=": lambda x, y: x == y,
    "<>": lambda x, y: x != y,
    "<": lambda x, y: x < y,
    "<=": lambda x, y: x <= y,
    ">": lambda x, y: x > y,
    ">=": lambda x, y: x >= y,
}


class OfLists(unittest.TestCase):
    def test_kinds_are_found(self) -> None:
        zoned = datetime(2026, 3, 1, 14, tzinfo=OSLO)
        for values, kind, back in [
            ([0.5, None], "f64", None),
            ([1, 2.5], "f64", [1.0, 2.5]),
            ([Decimal("9.5"), Decimal("10.25"), 100], "decimal(5,2)", [Decimal("9.50"), Decimal("10.25"), Decimal("100.00")]),
            ([Decimal("0.001")], "decimal(3,3)", None),
            ([Decimal("1E+3")], "decimal(4,0)", [Decimal(1000)]),
            ([Decimal("1" * 38)], "decimal(38,0)", None),
            ([date(1, 1, 1), date(9999, 12, 31)], "date", None),
            ([time(23, 59, 59, 999_999)], "time(us)", None),
            ([datetime(1, 1, 1), datetime(9999, 12, 31, 23, 59, 59, 999_999)], "timestamp(us)", None),
            ([zoned, None], "timestamp(us,UTC)", [datetime(2026, 3, 1, 13, tzinfo=timezone.utc), None]),
        ]:
            found = column(values)
            self.assertEqual((found.kind, list(map(repr, found))), (kind, list(map(repr, back or values))))
            self.assertEqual(column(values, kind), found)

    def test_kinds_are_asked_for(self) -> None:
        for values, of, back in [
            ([0.1], "f32", [struct.unpack("f", struct.pack("f", 0.1))[0]]),
            ([1, None], "f64", [1.0, None]),
            ([1, Decimal("2.50")], "decimal( 10 , 1 )", [Decimal("1.0"), Decimal("2.5")]),
            ([time(1, 2, 3)], "time(s)", [time(1, 2, 3)]),
            ([datetime(2026, 3, 1, 1, 2, 3, 4000)], "timestamp(ms)", [datetime(2026, 3, 1, 1, 2, 3, 4000)]),
            ([None, None], "timestamp(ns, UTC)?", [None, None]),
            ([], "decimal(38,38)", []),
        ]:
            self.assertEqual(list(map(repr, column(values, of))), list(map(repr, back)), of)

    def test_values_that_a_kind_does_not_have(self) -> None:
        utc = timezone.utc
        for values, of, error, place in [
            ([1.0, 1e300], "f32", doqallin.NotAValue, 1),
            ([2**53 + 1], "f64", doqallin.NotAValue, 0),
            ([2**24 + 1], "f32", doqallin.NotAValue, 0),
            ([10**400], "f64", doqallin.NotAValue, 0),
            ([Decimal("1.234")], "decimal(10,2)", doqallin.NotAValue, 0),
            ([1, Decimal("1E+2")], "decimal(2,0)", doqallin.NotAValue, 1),
            ([Decimal("NaN")], "decimal(10,2)", doqallin.NotAValue, 0),
            ([Decimal("1E+50")], "decimal(38,0)", doqallin.NotAValue, 0),
            ([Decimal("1E-50")], "decimal(38,38)", doqallin.NotAValue, 0),
            ([Decimal("1" * 20), Decimal("0." + "1" * 20)], None, doqallin.NotAValue, None),
            ([time(1, 2, 3, 4)], "time(ms)", doqallin.NotAValue, 0),
            ([time(1, tzinfo=utc)], "time(us)", doqallin.NotAValue, 0),
            ([datetime(2026, 3, 1, tzinfo=utc)], "timestamp(us)", doqallin.NotAValue, 0),
            ([None, datetime(2026, 3, 1)], "timestamp(us,UTC)", doqallin.NotAValue, 1),
            ([datetime(9999, 1, 1)], "timestamp(ns)", doqallin.NotAValue, 0),
            ([datetime(2026, 3, 1)], "date", doqallin.KindsDiffer, None),
            ([date(2026, 3, 1)], "timestamp(us)", doqallin.KindsDiffer, None),
            ([True], "f64", doqallin.KindsDiffer, None),
            ([0.5], "decimal(10,2)", doqallin.KindsDiffer, None),
            ([0.5, Decimal(1)], None, doqallin.UnknownKind, None),
            ([0.5, True], None, doqallin.UnknownKind, None),
            ([date(2026, 3, 1), datetime(2026, 3, 1)], None, doqallin.UnknownKind, None),
            ([datetime(2026, 3, 1), datetime(2026, 3, 1, tzinfo=utc)], None, doqallin.UnknownKind, None),
            ([timedelta(1)], None, doqallin.UnknownKind, None),
        ]:
            with self.assertRaises(error, msg=repr((values, of))) as refused:
                column(values, of)
            self.assertEqual(refused.exception.place, place)

    def test_words_that_are_no_kinds(self) -> None:
        for word in ["float64", "f16", "decimal", "decimal(39,0)", "decimal(2,3)", "decimal(0,0)", "date64", "timestamp", "timestamp(us,Oslo)", "duration(s)"]:
            with self.assertRaises(doqallin.UnknownKind):
                Filter("x is null", {"x": word})

    def test_floats_of_buffers(self) -> None:
        for code, kind in (("d", "f64"), ("f", "f32")):
            data = array.array(code, [1.5, math.inf, -0.0])
            found = column(data)
            self.assertEqual((found.kind, list(map(repr, found))), (kind, ["1.5", "inf", "-0.0"]))
            data[0] = 2.5
            self.assertEqual(found[0], 2.5)
            self.assertEqual(list(column(memoryview(data)[::2])), [2.5, 0.0])
            del found
        self.assertEqual(column([math.nan]), column([-math.nan]))
        self.assertNotEqual(column([math.nan]), column([1.0]))


class OfTables(unittest.TestCase):
    TABLE = {"fare": [12.5, 7.25], "odd": [[1], [2]], "city": ["Oslo", None]}

    def test_statistics_name_what_they_leave_out(self) -> None:
        known = statistics(self.TABLE)
        self.assertEqual((list(known), known.left_out), (["fare", "city"], {"odd": "a list of list is no column"}))
        self.assertTrue(Filter("fare > 12 and odd = 1", {"fare": "f64", "odd": "i64"}).may_match(known))
        self.assertFalse(Filter("fare > 13 and odd = 1", {"fare": "f64", "odd": "i64"}).may_match(known))
        with self.assertRaises(doqallin.UnknownKind):
            statistics(self.TABLE, strict=True)
        self.assertEqual(statistics({"fare": [1.5]}, strict=True).left_out, {})
        self.assertIn("left_out={'odd':", repr(known))
        back = pickle.loads(pickle.dumps(known))
        self.assertEqual((back, back.left_out, type(back)), (known, known.left_out, TableStatistics))
        both = known | statistics({"fare": [99.0], "city": [None], "odd": [1]})
        self.assertEqual((both["fare"].upper, sorted(both), both.left_out), (99.0, ["city", "fare"], known.left_out))

    def test_columns_that_are_asked_for(self) -> None:
        self.assertEqual(list(columns(self.TABLE, ["city", "fare"])), ["city", "fare"])
        with self.assertRaises(doqallin.UnknownKind):
            columns(self.TABLE)
        with self.assertRaises(doqallin.NoColumn):
            columns(self.TABLE, ["town"])

    def test_names_that_are_odd(self) -> None:
        source = random.Random(3)
        twice = struct_of(source, tuple(layout(source, "l", [number], name) for number, name in enumerate("aba")), 1)
        self.assertEqual(list(columns(twice, ["b"])["b"]), [1])
        self.assertEqual(list(Filter("b = 1", {"b": "i64"}).mask(twice)), [True])
        self.assertEqual(statistics(twice).left_out, {"a": "two columns have the name 'a'"})
        with self.assertRaises(doqallin.NoColumn):
            Filter("a = 1", {"a": "i64"}).mask(twice)

    def test_a_kind_of_another_unit(self) -> None:
        moments = column([datetime(2026, 3, 1)])
        for of in ("timestamp(ns)", "timestamp(us,UTC)", "date", "i64"):
            with self.assertRaises(doqallin.KindsDiffer):
                Filter("x is null", {"x": of}).mask({"x": moments})
            with self.assertRaises(doqallin.KindsDiffer):
                statistics(moments) | statistics([], of=of)
        with self.assertRaises(doqallin.UnknownKind):
            doqallin.cast(moments, "i64")
        with self.assertRaises(doqallin.BadBytes):
            Statistics.from_bytes(bytes(statistics([1])), "f64")
        late = bytes(statistics([time(1)], of="time(s)")).replace(statistics([3600]).__bytes__()[-3:], statistics([90_000]).__bytes__()[-4:])
        with self.assertRaises(doqallin.NotAValue):
            Statistics.from_bytes(late, "time(s)")
        for value, of in [(0.5, "f64"), (date(2026, 3, 1), "date"), (Decimal("1.5"), "decimal(20,1)")]:
            self.assertEqual(statistics([None]) | statistics([value], of=of), statistics([None, value], of=of))
            self.assertEqual(statistics([value], of=of) | statistics([None, None]), statistics([value, None, None], of=of))
            self.assertFalse(Filter("x is not null", {"x": of}).may_match({"x": statistics([None])}))


class OfLiterals(unittest.TestCase):
    def test_texts(self) -> None:
        for value, text in [
            (None, "null"),
            (True, "true"),
            (-7, "-7"),
            (0.1, "0.1"),
            (1e16, "1e+16"),
            (-math.inf, "'-inf'"),
            (math.nan, "'NaN'"),
            (Decimal("12.30"), "12.30"),
            (Decimal("1E+5"), "100000"),
            (Decimal("-0.001"), "-0.001"),
            ("O'Hara", "'O''Hara'"),
            (b"\x00\xff", "x'00ff'"),
            (date(1, 2, 3), "'0001-02-03'"),
            (time(14, 5), "'14:05:00'"),
            (datetime(2026, 3, 1, 14, 5, 7, 250), "'2026-03-01T14:05:07.000250'"),
            (datetime(2026, 3, 1, 14, tzinfo=OSLO), "'2026-03-01T14:00:00+01:00'"),
        ]:
            self.assertEqual(literal(value), text)
        for value, error in [(Decimal("NaN"), doqallin.NotAValue), ([1], TypeError), (timedelta(1), TypeError)]:
            with self.assertRaises(error):
                literal(value)

    def test_times_without_a_zone(self) -> None:
        utc = timezone.utc
        moments = [datetime(2026, 3, 1, 14, tzinfo=utc), datetime(2026, 3, 1, 15, tzinfo=OSLO), datetime(2026, 3, 1, 14, tzinfo=OSLO), None]
        wanted = Filter("at between '2026-03-01 14:00' and '2026-03-01T15:00:00Z'", {"at": "timestamp(us,UTC)"})
        self.assertEqual(list(wanted.mask({"at": moments})), [True, True, False, False])
        with self.assertRaises(doqallin.BadFilter):
            Filter("at < '2026-03-01T15:00:00Z'", {"at": "timestamp(us)"})

    def test_literals_between_values(self) -> None:
        fares = {"fare": [Decimal("12.34"), Decimal("12.35"), None]}
        for text, matches in [
            ("fare < 12.345", [True, False, False]),
            ("fare = 12.345", [False, False, False]),
            ("fare <> 12.345", [True, True, False]),
            ("fare >= '12.35'", [False, True, False]),
            ("fare < 1e9", None),
            ("fare < 99999999999999999999", [True, True, False]),
        ]:
            if matches is None:
                with self.assertRaises(doqallin.BadFilter):
                    Filter(text, {"fare": "decimal(10,2)"})
            else:
                self.assertEqual(list(Filter(text, {"fare": "decimal(10,2)"}).mask(fares)), matches, text)


if __name__ == "__main__":
    unittest.main()
