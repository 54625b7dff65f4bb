# SPDX-License-Identifier: Apache-2.0
"""Scalars and types from Python: random ones against plain Python, and each refusal by its name."""

from __future__ import annotations

import os
import pickle
import random
import unittest
from typing import Any

import doqallin
from doqallin import DType, Scalar, dtype, scalar

COUNT = int(os.environ.get("DOQALLIN_COUNT", 100_000)) // 20
INTEGERS = ["u8", "u16", "u32", "u64", "i8", "i16", "i32", "i64"]
NAMES = ["a", "_b1", "null", "a b", 'say "x"', "ñ\n", "=> "]


def limits(kind: str) -> tuple[int, int]:
    bits = int(kind[1:])
    return (-(2 ** (bits - 1)), 2 ** (bits - 1) - 1) if kind[0] == "i" else (0, 2**bits - 1)


def some_type(source: random.Random, depth: int) -> DType:
    mark = source.choice(["", "?"])
    kind = source.choice(["leaf", "list", "fsl", "map", "struct", "union", "ext"] if depth else ["leaf"])
    if kind == "leaf":
        return dtype(source.choice([*INTEGERS, "bool", "utf8", "binary"]) + mark)
    part = some_type(source, depth - 1)
    if kind == "list":
        return dtype(f"list({part}){mark}")
    if kind == "fsl":
        return dtype(f"fsl({part}, {source.randrange(4)}){mark}")
    if kind == "map":
        return dtype(f"map({source.choice(INTEGERS)}, {part}{source.choice(['', ', sorted'])}){mark}")
    if kind == "ext":
        return DType("ext", part.is_nullable, (part,), (source.choice(NAMES),), metadata=source.randbytes(2))
    names = tuple(source.sample(NAMES, source.randrange(1, 4)))
    children = tuple(some_type(source, depth - 1) for _ in names)
    type_ids = tuple(source.sample(range(256), len(names))) if kind == "union" else ()
    return DType(kind, bool(mark), children, names, type_ids)


def some_value(source: random.Random, of: DType) -> Any:
    """A value as `as_py` gives it."""
    if of.kind == "ext":
        return some_value(source, of.children[0])
    if of.is_nullable and source.randrange(4) == 0:
        return None
    if of.kind in INTEGERS:
        least, greatest = limits(of.kind)
        return source.choice([least, greatest, 0, source.randint(least, greatest)]) if least else source.randint(0, greatest)
    if of.kind == "bool":
        return source.random() < 0.5
    if of.kind == "utf8":
        return "".join(source.choice('az\0\x01\n\t"\\\x7fñ€𐍈 =>{}[],;:') for _ in range(source.randrange(6)))
    if of.kind == "binary":
        return source.randbytes(source.randrange(4))
    if of.kind == "struct":
        return {name: some_value(source, child) for name, child in zip(of.names, of.children)}
    if of.kind == "union":
        place = source.randrange(len(of.children))
        return of.type_ids[place], some_value(source, of.children[place])
    if of.kind == "map":
        return [(some_value(source, of.children[0]), some_value(source, of.children[1])) for _ in range(source.randrange(3))]
    length = of.size if of.kind == "fsl" else source.randrange(4)
    return [some_value(source, of.children[0]) for _ in range(length)]


class Compared(unittest.TestCase):
    def test_types_are_read_and_written(self) -> None:
        source = random.Random(1)
        for _ in range(COUNT):
            of = some_type(source, 3)
            self.assertEqual(dtype(str(of)), of)
            self.assertEqual(hash(dtype(str(of))), hash(of))
            self.assertIs(eval(repr(of), {"dtype": dtype}), dtype(str(of)))

    def test_values_come_back(self) -> None:
        source = random.Random(2)
        for _ in range(COUNT):
            of = some_type(source, 3)
            value = some_value(source, of)
            made = scalar(value, of)
            self.assertEqual(made.as_py(), value, str(made))
            self.assertEqual(made.dtype, of)
            self.assertEqual(made.is_null, value is None)
            self.assertEqual(Scalar.from_text(str(made)), made)
            self.assertEqual(eval(repr(made), {"scalar": scalar}), made)
            self.assertEqual(str(pickle.loads(pickle.dumps(made))), str(made))
            back = Scalar.from_key(made.key(), of)
            self.assertEqual(back.as_py(), value)
            self.assertEqual(hash(back), hash(made))

    def test_casts_of_integers(self) -> None:
        source = random.Random(3)
        for _ in range(COUNT):
            of, to = source.choice(INTEGERS), source.choice(INTEGERS)
            value = some_value(source, dtype(of))
            least, greatest = limits(to)
            made = scalar(value, of)
            if least <= value <= greatest:
                self.assertEqual(str(made.cast(to)), f"{to}:{value}{to}")
                self.assertEqual(hash(made.cast(to)), hash(made))
            else:
                with self.assertRaises(doqallin.CannotCast):
                    made.cast(to)

    def test_keys_sort_as_scalars(self) -> None:
        source = random.Random(4)
        for _ in range(COUNT // 10):
            of = some_type(source, 2)
            if "union" in str(of):
                continue
            scalars = [scalar(some_value(source, of), of) for _ in range(8)]
            keys = [one.key() for one in sorted(scalars)]
            self.assertEqual(keys, sorted(keys))
            back = [Scalar.from_key(key, of, descending=True) for key in sorted(one.key(descending=True) for one in scalars if not one.is_null)]
            self.assertEqual([one.key() for one in back], sorted((one.key() for one in scalars if not one.is_null), reverse=True))

    def test_comparisons(self) -> None:
        source = random.Random(5)
        for _ in range(COUNT):
            kind = source.choice(INTEGERS)
            x, y = some_value(source, dtype(kind)), some_value(source, dtype(kind))
            left, right = scalar(x, kind), scalar(y, f"{kind}?")
            self.assertEqual(
                (left < right, left <= right, left == right, left >= right, left > right),
                (x < y, x <= y, x == y, x >= y, x > y),
            )


class Refused(unittest.TestCase):
    def test_invalid_with_its_path(self) -> None:
        for value, of, path, breach in [
            ([[1], [None]], "list(list(i32))", ("Element(1)", "Element(0)"), "NullNotAllowed"),
            (None, "u8", (), "NullNotAllowed"),
            ("a", "u8", (), "WrongValue"),
            ([1, 2, 3], "fsl(u8, 2)", (), "WrongLength"),
            ([1], "{a: u8, b: u8}", (), "WrongLength"),
            ({"a": 1, "b": "x"}, "{a: u8, b: u8}", ("Field(1)",), "WrongValue"),
            ({1: None}, "map(i32, utf8)", ("Entry(0)", "Value"), "NullNotAllowed"),
            ((4, 1), "union(3 a: i32)", (), "UnknownTypeId"),
            ((3, "x"), "union(3 a: i32)", ("Child",), "WrongValue"),
        ]:
            with self.assertRaises(doqallin.Invalid) as told:
                scalar(value, of)
            self.assertEqual((told.exception.path, told.exception.breach), (path, breach), of)
            self.assertEqual(pickle.loads(pickle.dumps(told.exception)).path, path)

    def test_types_that_are_none(self) -> None:
        for text in ["", "i33", "list", "list(", "list(i32", "list(i32))", "fsl(i32)", "{a i32}", "i32??", "ext(a, 0, i32)", "map(i8, i8, sort)", 'union(0 "a: i32)']:
            with self.assertRaises(doqallin.BadText):
                dtype(text)
        for text, cause in [("map(i32?, i32)", "NullableKey"), ("union(1 a: i32, 1 b: i32)", "RepeatedTypeId")]:
            with self.assertRaises(doqallin.BadType) as told:
                scalar([], text)
            self.assertEqual(told.exception.cause, cause)

    def test_texts_that_are_no_scalars(self) -> None:
        for text in ["", "i32", "i32:", "i32:1", "i32:1i32 2", "i32:1i32 => i32:1i32", "i32:1i32\n", "list(i32):[1i32"]:
            with self.assertRaises((doqallin.BadText, doqallin.Invalid), msg=text):
                Scalar.from_text(text)
        with self.assertRaises(doqallin.BadText):
            scalar(1, "i32").cast("i16 => i16:7i16")

    def test_other_refusals(self) -> None:
        for error, ask in [
            (doqallin.NotANumber, lambda: scalar(256, "u8")),
            (doqallin.NotANumber, lambda: scalar(2**64)),
            (doqallin.NotUtf8, lambda: scalar("\ud800")),
            (doqallin.NoField, lambda: scalar({"a": 1}, "{a: u8, b: u8}")),
            (doqallin.NoField, lambda: scalar({"c": 1}, "{a: u8}")),
            (doqallin.CannotCast, lambda: scalar("7").cast("u8")),
            (doqallin.NoOrder, lambda: scalar(1, "u8") < scalar(1, "u16")),
            (doqallin.HasVariant, lambda: scalar(scalar(1), "variant").key()),
            (doqallin.TooDeep, lambda: scalar(None, "list(" * 33 + "u8" + ")" * 32 + ")?")),
            (doqallin.BadKey, lambda: Scalar.from_key(b"\x0d\x80", "i8")),
            (doqallin.BadKey, lambda: Scalar.from_key(b"\x0d\x07\x07", "i8")),
            (TypeError, lambda: scalar([1])),
            (TypeError, lambda: scalar(1.5, "i32")),
            (TypeError, lambda: scalar(1) < 2),
            (TypeError, Scalar),
        ]:
            with self.assertRaises(error):
                ask()

    def test_equality(self) -> None:
        self.assertNotEqual(scalar(1), 1)
        self.assertNotEqual(scalar(1, "u8"), scalar(1, "u16"))
        self.assertEqual(scalar(scalar(7, "u8"), "variant"), scalar(scalar(7, "u8?"), "variant"))
        self.assertEqual(hash(scalar(scalar(7, "u8"), "variant")), hash(scalar(scalar(7, "u8?"), "variant")))
        self.assertEqual(scalar(scalar([1], "list(u8)"), "variant").as_py().as_py(), [1])


if __name__ == "__main__":
    unittest.main()
