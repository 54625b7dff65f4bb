# SPDX-License-Identifier: Apache-2.0
"""Calls a second through the boundary, beside plain Python; columns need numpy. Where there is an aim, it stands last."""

import csv
import sqlite3
import tempfile
import timeit
from array import array
from datetime import date
from decimal import Decimal
from itertools import accumulate

import doqallin
from doqallin import Filter, Kind, LibraryMissing, ZoneBounds, Zones, cast, column, row_keys, scalar, sort_rows, statistics
from doqallin._library import _folder


def seconds(call, calls: int) -> float:
    """The seconds of one call: the best of five rounds."""
    return min(timeit.repeat(call, number=calls, repeat=5)) / calls


def compare(name: str, ours, plain, calls: int = 100_000) -> None:
    of_ours, of_plain = seconds(ours, calls), seconds(plain, calls)
    print(f"Python, {name}: {1e-6 / of_ours:.6f} million calls a second, {of_ours / of_plain:.2f} of the time of plain Python")


def compare_columns(name: str, ours, plain, aim: str = "") -> None:
    of_ours, of_plain = seconds(ours, 5), seconds(plain, 5)
    print(f"Python, {name}: {1e3 * of_ours:.2f} ms, {of_ours / of_plain:.2f} of the time of numpy{aim and f'; the aim is {aim}'}")


def plain_upper(value: bytes, n: int) -> bytes | None:
    if len(value) <= n:
        return value
    number = int.from_bytes(value[:n], "big") + 1
    return None if number >= 256**n else number.to_bytes(n, "big")


def plain_column(data: bytes, offsets: array, n: int) -> tuple[bytes, bytes | None]:
    values = [data[start:end] for start, end in zip(offsets, offsets[1:])]
    return min(values)[:n], plain_upper(max(values), n)


def columns() -> None:
    """Calls over an array of numpy, where there is numpy."""
    try:
        import numpy
    except ImportError:
        print("Python, columns: numpy is not installed")
        return
    numbers = numpy.random.default_rng(1).integers(-(2**31), 2**31, 1_000_000)

    def plain_cast():
        made = numbers.astype("i4")
        assert (made == numbers).all()
        return made

    compare_columns("the statistics of a million i64, beside min and max", lambda: statistics(numbers), lambda: (numbers.min(), numbers.max()), "3")
    floats = numbers / 64
    compare_columns("the statistics of a million f64, beside min and max", lambda: statistics(floats), lambda: (floats.min(), floats.max()), "4")
    masks(numpy, numbers, floats)
    compare_columns("a cast of a million i64 to i32", lambda: cast(numbers, "i32"), plain_cast, "1")
    compare_columns("the keys of a million i64, beside sorting", lambda: row_keys([numbers]), lambda: numbers.argsort())
    orders(numpy, numbers)


def masks(numpy, numbers, floats) -> None:
    """Masks of a million rows, beside numpy's own expressions."""
    of_numbers = Filter("a > 5 and b <= 100000000", {"a": "i64", "b": "i64"})
    compare_columns("the mask of two i64", lambda: of_numbers.mask({"a": numbers, "b": numbers}), lambda: (numbers > 5) & (numbers <= 100_000_000), "1.5")
    of_floats = Filter("a > 1000.5 and b <= 100000", {"a": "f64", "b": "f64"})
    compare_columns("the mask of two f64", lambda: of_floats.mask({"a": floats, "b": floats}), lambda: (floats > 1000.5) & (floats <= 100_000), "1.5")
    words = [["Oslo", "Bergen", "Stavanger", "Trondheim"][number % 4] for number in numbers.tolist()]
    towns, of_numpy = column(words), numpy.array(words)
    of_towns = Filter("city = 'Oslo'", {"city": "utf8"})
    compare_columns("the mask of a town", lambda: of_towns.mask({"city": towns}), lambda: of_numpy == "Oslo")


def orders(numpy, numbers) -> None:
    """The order of a million rows of two columns."""
    places = numpy.arange(len(numbers)) * 2_654_435_761 % 300
    names = numpy.array([f"town number {number}" for number in range(300)])[places]
    towns = column(names.tolist())
    compare_columns("the order of a million strings and i64", lambda: sort_rows([towns, numbers]), lambda: numpy.lexsort((numbers, names)), "0.33")
    compare_columns("the order of a million rows of two i64", lambda: sort_rows([places, numbers]), lambda: numpy.lexsort((numbers, places)))
    found = Filter("x > 0", {"x": "i64"}).mask({"x": numbers})
    compare_columns("the rows of a mask", lambda: numbers[found], lambda: numbers[numbers > 0])


def filters() -> None:
    """A filter over 10,000 zones of two columns."""
    zones = Zones({"time": statistics([100 * zone, 100 * zone + 120]), "city": statistics([f"Oslo {zone}", f"Oslo {zone + 7}", None])} for zone in range(10_000))
    wanted = Filter("time between 500000 and 510000 and city >= 'Oslo 5'", {"time": "i64", "city": "utf8?"})
    left = wanted.prune(zones)
    print(f"Python, a filter over 10,000 zones, of which {len(left)} are left: {1e3 * seconds(lambda: wanted.prune(zones), 10):.2f} ms; the aim is 2")


def plain_table(path: str) -> dict[str, list]:
    """The rows of Oslo, by plain Python."""
    with open(path, newline="", encoding="utf-8") as file:
        rows = [row for row in csv.reader(file) if row[1] == "Oslo"]
    number, town, fare, day, word = zip(*rows)
    return {"number": list(map(int, number)), "town": list(town), "fare": list(map(Decimal, fare)), "day": list(map(date.fromisoformat, day)), "word": list(word)}


def files() -> None:
    """A table of a fifth of 200,000 records, and a sum over them in SQLite, where its module loads extensions."""
    with tempfile.TemporaryDirectory() as folder:
        path, towns = f"{folder}/trips.csv", ("Oslo", "Bern", "Lima", "Riga", "Quito")
        with open(path, "w", encoding="utf-8") as file:
            file.writelines(f"{n},{towns[n * 7 % 5]},{n % 10_000 / 100},2026-03-{1 + n % 28:02},{n * 2_654_435_761 % 10**9:x}\n" for n in range(200_000))
        ours, plain = seconds(lambda: doqallin.open(path).find("$2 = 'Oslo'"), 1), seconds(lambda: plain_table(path), 1)
        print(f"Python, a table of 40,000 of 200,000 records: {1e3 * ours:.0f} ms, {ours / plain:.2f} of the time of csv and of values of Python")
        store, extension = sqlite3.connect(":memory:"), _folder() / "zone_map.so"
        if not extension.is_file() or not hasattr(store, "enable_load_extension"):
            print("Python, SQLite: there is no zone_map.so, or sqlite3 loads no extension")
            return
        store.enable_load_extension(True)
        store.execute("select load_extension(?)", (str(extension),))
        store.execute(f"create virtual table trips using zone_map('{path}')")
        asked = "select sum(\"$3\") from trips where \"$2\" = 'Oslo'"
        print(f"SQLite, a sum over 40,000 of 200,000 records: {1e3 * seconds(lambda: store.execute(asked).fetchall(), 1):.0f} ms")


def scalars() -> None:
    """Scalars, by lines of the call."""
    try:
        number = scalar(1000, "i32")
    except LibraryMissing as missing:
        print(f"Python, scalars: {missing}")
        return
    values = scalar([1, 2, None], "list(u8?)")
    for name, call in [
        ("a cast of a scalar", lambda: number.cast("i16")),
        ("a cast of a scalar of three parts", lambda: values.cast("fsl(i64?, 3)")),
        ("a scalar made", lambda: scalar(1000, "i32")),
        ("a comparison of scalars", lambda: number < number),
    ]:
        print(f"Python, {name}: {1e-3 / seconds(call, 20_000):.0f} thousand calls a second")


def main() -> None:
    value = bytes(range(200))
    zone = ZoneBounds.of("apple pie", "banana split", 16)
    compare("cast", lambda: doqallin.cast(1000, Kind.I64, Kind.I16), lambda: 1000 if -32768 <= 1000 < 32768 else None)
    compare("lower bound of 200 bytes at 16", lambda: doqallin.lower_bound(value, 16), lambda: value[:16])
    compare("upper bound of 200 bytes at 16", lambda: doqallin.upper_bound(value, 16), lambda: plain_upper(value, 16))
    compare("a literal and a zone", lambda: zone.may_contain("cherry"), lambda: zone.lower <= "cherry" <= zone.upper)
    values = [str(number * 2_654_435_761 % 10**12).encode() for number in range(1_000_000)]
    data = b"".join(values)
    offsets = array("Q", accumulate(map(len, values), initial=0))
    columns()
    filters()
    files()
    scalars()
    compare("a column of a million values", lambda: doqallin.column_bounds(data, offsets, 16), lambda: plain_column(data, offsets, 16), 1)


if __name__ == "__main__":
    main()
