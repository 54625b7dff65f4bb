# SPDX-License-Identifier: Apache-2.0
"""Random values of each call, compared with plain Python, the stored cases, and what each error comes of.

python3 -m unittest runs it, in this folder. There are 100,000 values of each call, or as many as DOQALLIN_COUNT says.
"""

from __future__ import annotations

import doctest
import os
import random
import subprocess
import sys
import tempfile
import unittest
from array import array
from itertools import accumulate, pairwise
from pathlib import Path

import doqallin
import doqallin._library
from doqallin import Kind, ZoneBounds

COUNT = int(os.environ.get("DOQALLIN_COUNT", 100_000))
TOP = Path(__file__).resolve().parents[2]
CASES = TOP / "crates/scalar_cases"
RANGES = {
    kind: range(-(2 ** (int(kind.name[1:]) - 1)), 2 ** (int(kind.name[1:]) - 1))
    if kind.is_signed
    else range(2 ** int(kind.name[1:]))
    for kind in Kind
}
# The least and the greatest character of each width in UTF-8, and those beside the surrogates.
EDGES = "\0A\x7f\x80\u07ff\u0800\ud7ff\ue000\uffff\U00010000\U0010fffe\U0010ffff"


def some_number(source: random.Random, kind: Kind) -> int:
    within = RANGES[kind]
    near = source.choice([0, 128, 256, 2**15, 2**16, 2**31, 2**32, 2**63]) * source.choice([1, -1]) + source.randrange(-2, 3)
    return near if near in within else source.choice([within[0], within[-1], source.randrange(within[0], within[-1] + 1)])


def some_bytes(source: random.Random) -> bytes:
    high = source.randrange(8) == 0
    return bytes(255 if high or source.randrange(2) else source.randrange(256) for _ in range(source.randrange(30)))


def some_char(source: random.Random) -> str:
    code = source.randrange(0x110000 - 0x800)
    return chr(code if code < 0xD800 else code + 0x800)


def some_text(source: random.Random) -> str:
    return "".join(source.choice(EDGES) if source.randrange(2) else some_char(source) for _ in range(source.randrange(12)))


def some_length(source: random.Random, of: int) -> int:
    return 2**64 + source.randrange(3) - 2 if source.randrange(20) == 0 else source.randrange(of + 3)


def some_offset(source: random.Random, end: int) -> int:
    return source.randrange(-3, 2**65) if source.randrange(20) == 0 else source.randrange(end + 2)


def plain_upper(value: bytes, n: int) -> bytes | None:
    if len(value) <= n:
        return value
    number = int.from_bytes(value[:n], "big") + 1
    return None if number >= 256**n else number.to_bytes(n, "big")


def plain_lower_text(value: str, n: int) -> str:
    return value.encode()[:n].decode(errors="ignore")


def plain_upper_text(value: str, n: int) -> str | None:
    if len(value.encode()) <= n:
        return value
    front = plain_lower_text(value, n)
    if not front or ord(front[-1]) in (0xD7FF, 0x10FFFF):
        return None
    bound = front[:-1] + chr(ord(front[-1]) + 1)
    return bound if len(bound.encode()) == len(front.encode()) else None


class Compared(unittest.TestCase):
    def test_casts(self) -> None:
        source = random.Random(1)
        kinds = list(Kind)
        for of in kinds:
            for to in kinds:
                for _ in range(COUNT // 64 + 1):
                    number = some_number(source, of)
                    self.assertEqual(doqallin.cast(number, of, to), number if number in RANGES[to] else None)

    def test_bounds_of_bytes(self) -> None:
        source = random.Random(2)
        for _ in range(COUNT):
            value = some_bytes(source)
            n = some_length(source, len(value))
            self.assertEqual(doqallin.lower_bound(value, n), value[:n])
            self.assertEqual(doqallin.upper_bound(value, n), plain_upper(value, n))

    def test_bounds_of_texts(self) -> None:
        source = random.Random(3)
        for _ in range(COUNT):
            value = some_text(source)
            n = some_length(source, len(value.encode()))
            self.assertEqual(doqallin.lower_bound_text(value, n), plain_lower_text(value, n))
            self.assertEqual(doqallin.upper_bound_text(value, n), plain_upper_text(value, n))

    def test_zones(self) -> None:
        source = random.Random(4)
        for some, lower_of, upper_of in [(some_bytes, lambda v, n: v[:n], plain_upper), (some_text, plain_lower_text, plain_upper_text)]:
            key = (lambda value: value.encode()) if some is some_text else bytes
            for _ in range(COUNT):
                least, greatest, value = some(source), some(source), some(source)
                n = some_length(source, len(key(least)))
                bounds = ZoneBounds.of(least, greatest, n)
                self.assertEqual((bounds.lower, bounds.upper), (lower_of(least, n), upper_of(greatest, n)))
                is_below = key(value) < key(bounds.lower)
                is_above = bounds.upper is not None and key(value) > key(bounds.upper)
                self.assertEqual(bounds.may_contain(value), not is_below and not is_above)

    def test_columns(self) -> None:
        source = random.Random(5)
        for some, lower_of, upper_of, call in [
            (some_bytes, lambda v, n: v[:n], plain_upper, doqallin.column_bounds),
            (some_text, plain_lower_text, plain_upper_text, doqallin.column_bounds_text),
        ]:
            key = (lambda value: value.encode()) if some is some_text else bytes
            for _ in range(COUNT):
                values = [some(source) for _ in range(source.randrange(4))]
                offsets = array("Q", accumulate((len(key(value)) for value in values), initial=0))
                n = some_length(source, 20)
                bounds = call(b"".join(map(key, values)), offsets, n)
                if not values:
                    self.assertIsNone(bounds)
                    continue
                self.assertEqual(bounds.lower, lower_of(min(values, key=key), n))
                self.assertEqual(bounds.upper, upper_of(max(values, key=key), n))

    def test_hostile_offsets(self) -> None:
        source = random.Random(6)
        for _ in range(COUNT):
            data = some_bytes(source)
            offsets = [some_offset(source, len(data)) for _ in range(source.randrange(5))]
            is_number = all(0 <= offset < 2**64 for offset in offsets)
            if is_number and all(a <= b <= len(data) for a, b in pairwise(offsets)):
                self.assertEqual(doqallin.column_bounds(data, offsets, 8) is not None, len(offsets) > 1)
            else:
                with self.assertRaises(doqallin.BadOffsets):
                    doqallin.column_bounds(data, offsets, 8)


def is_right(line: str) -> bool:
    """Whether the call before an arrow of the line answers what follows it. A string in a line may have an arrow too."""
    parts = line.split(" => ")
    return any(doqallin.call(" => ".join(parts[:place]), depth=256) == " => ".join(parts[place:]) for place in range(1, len(parts)))


class Cases(unittest.TestCase):
    def test_stored_cases(self) -> None:
        lines = (CASES / "stdin").read_text(encoding="utf-8").split("\n")
        cases = [line for line in lines if not line.startswith("#") and " => " in line]
        self.assertEqual((CASES / "stdout").read_text(), f"{len(cases)} cases, 0 wrong\n")
        self.assertEqual([line for line in cases if not is_right(line)], [])

    def test_an_answer_of_any_length(self) -> None:
        for length in [0, 100, 248, 249, 250, 100_000]:
            text = 'utf8:"' + "a" * length + '"'
            self.assertEqual(doqallin.call(f"clone {text}"), text)

    def test_what_nests_too_deep(self) -> None:
        for depth in [1, 32, 500]:
            for line in [lambda n: "zero " + "list(" * n + "u8" + ")" * n, lambda n: "check " + "not " * n + "$1 = 1; i32; i32"]:
                self.assertNotEqual(doqallin.call(line(depth), depth), "TooDeep")
                self.assertEqual(doqallin.call(line(depth + 1), depth), "TooDeep")
        self.assertEqual(doqallin.call("clone " + "list(" * 33 + "u8" + ")" * 33 + ":null"), "TooDeep")
        self.assertEqual(doqallin.call("zero u8", depth=0), "u8:0u8")

    def test_what_is_no_line(self) -> None:
        for line in ["", "cast", "cast i32:1i32", "# cast i32:1i32 i8", "cast i32:1i32 i8\n", "\0"]:
            self.assertEqual(doqallin.call(line), "bad line")
        self.assertEqual(doqallin.call("cast i32:1i32 i8 => 7"), "i8:1i8")


class Refused(unittest.TestCase):
    def test_numbers_of_no_kind(self) -> None:
        for number, kind in [(256, Kind.U8), (-1, Kind.U64), (128, Kind.I8), (2**64, Kind.U64), (2**63, Kind.I64), (-(2**63) - 1, Kind.I64)]:
            with self.assertRaises(doqallin.NotANumber):
                doqallin.cast(number, kind, Kind.U64)
        with self.assertRaises(ValueError):
            doqallin.cast(1, 8, Kind.U64)

    def test_strings_that_are_none(self) -> None:
        for call in [doqallin.lower_bound_text, doqallin.upper_bound_text]:
            with self.assertRaises(doqallin.NotUtf8):
                call("a\ud800", 1)
        with self.assertRaises(doqallin.NotUtf8):
            ZoneBounds("a", "b").may_contain("\ud800")
        with self.assertRaises(doqallin.NotUtf8):
            doqallin.call('clone utf8:"\ud800"')
        with self.assertRaises(doqallin.NotUtf8):
            doqallin.column_bounds_text("ñ", [0, 1], 8)

    def test_a_byte_past_the_bound(self) -> None:
        for offsets in [[0, 2], [0, 2, 3]]:
            with self.assertRaises(doqallin.NotUtf8):
                doqallin.column_bounds_text("añb", offsets, 1)

    def test_one_family(self) -> None:
        for error in [doqallin.BadOffsets, doqallin.LibraryMissing, doqallin.NegativeLength, doqallin.NotANumber, doqallin.NotUtf8, doqallin.OutOfMemory]:
            self.assertTrue(issubclass(error, doqallin.DoqallinError))
        with self.assertRaises(doqallin.NegativeLength):
            doqallin.lower_bound(b"a", -1)

    def test_values_of_other_types(self) -> None:
        for value in [None, "a", 3, [1]]:
            with self.assertRaises(TypeError):
                doqallin.lower_bound(value, 1)
        for text in [None, b"a", 3, ["a"]]:
            with self.assertRaises(TypeError):
                doqallin.lower_bound_text(text, 1)
        with self.assertRaises(TypeError):
            ZoneBounds("a", "b").may_contain(b"a")


class Taken(unittest.TestCase):
    def test_bytes_of_each_kind(self) -> None:
        for value in [b"a\0bc", bytearray(b"a\0bc"), memoryview(b"a\0bc"), memoryview(b"a.\0.b.c.")[::2]]:
            self.assertEqual(doqallin.lower_bound(value, 3), b"a\0b")
            self.assertEqual(doqallin.upper_bound(value, 3), b"a\0c")

    def test_a_column_of_each_kind(self) -> None:
        for data in [b"abcd", bytearray(b"abcd"), memoryview(b"abcd")]:
            for offsets in [[1, 2, 4], (1, 2, 4), array("Q", [1, 2, 4]), iter([1, 2, 4]), bytes([1, 2, 4])]:
                self.assertEqual(doqallin.column_bounds(data, offsets, 1), ZoneBounds(b"b", b"d"))

    def test_no_upper_bound(self) -> None:
        bounds = doqallin.column_bounds(b"a\xff\xff", [0, 1, 3], 1)
        self.assertEqual(bounds, ZoneBounds(b"a", None))
        self.assertTrue(bounds.may_contain(b"\xff\xff\xff"))
        self.assertFalse(bounds.may_contain(b""))


class Found(unittest.TestCase):
    def test_versions_agree(self) -> None:
        self.assertEqual(doqallin.__version__, (TOP / "VERSION").read_text().strip())
        self.assertEqual(doqallin.library_version(), doqallin.__version__)

    def test_a_library_that_is_not_there(self) -> None:
        with tempfile.TemporaryDirectory() as folder:
            self.assertEqual(told("import doqallin", folder), f"doqallin.LibraryMissing: {folder}/libdoqallin.so is not there: run tools/build_bindings")
            os.symlink(doqallin._library.library._name, f"{folder}/libdoqallin.so")
            self.assertEqual(told("import doqallin; doqallin.lower_bound(b'a', 1)", folder), "")
            said = f"doqallin.LibraryMissing: {folder}/libdoqallin_call.so is not there: run tools/build_bindings --call"
            self.assertEqual(told("import doqallin; doqallin.call('')", folder), said)


def told(code: str, folder: str) -> str:
    """The last line on standard error of a program that looks for the libraries in this folder."""
    ran = subprocess.run([sys.executable, "-c", code], cwd=Path(__file__).parent, env={**os.environ, "DOQALLIN_LIB": folder}, capture_output=True, text=True)
    return ran.stderr.strip().rpartition("\n")[2]


def load_tests(loader: unittest.TestLoader, tests: unittest.TestSuite, pattern: str | None) -> unittest.TestSuite:
    tests.addTests(doctest.DocTestSuite(doqallin))
    tests.addTests(doctest.DocFileSuite("../../docs/PYTHON.md", encoding="utf-8"))
    return tests


if __name__ == "__main__":
    unittest.main()
