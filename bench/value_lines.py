# SPDX-License-Identifier: Apache-2.0
"""Lines of calls on values of each kind. A raw value is made as its text with the number of its nodes: its leaves, nulls,
tuples, unions and variants. A kind gives the same values at each run.
"""
import random
from collections import namedtuple

DEPTH = 6

# A kind of value: what makes a value of so many nodes; its type, another that differs in nullability alone, and the
# target of a cast; the parts of which zeros are made, and their type.
Kind = namedtuple("Kind", "make dtype loose target zeros zero_type")
# A call: what is shown, its line, the scalars that are validated before it, and the nodes that it goes through.
Call = namedtuple("Call", "name line validated nodes")


def tuple_of(parts):
    return f"[{', '.join(text for text, _ in parts)}]", 1 + sum(nodes for _, nodes in parts)


def filled(nodes, part, last):
    """Returns a tuple of about so many nodes."""
    parts, made = [], 1
    while made < nodes - 4:
        parts.append(part())
        made += parts[-1][1]
    return tuple_of([*parts, last])


class Values:
    """Makes parts of values by chance. `q` is the nullability of types within variants."""

    def __init__(self, q=""):
        self.random, self.q, self.entries = random.Random(7), q, 0

    def integer(self, kind="i32", most=2**31 - 1):
        least = 0 if kind[0] == "u" else -most
        number = self.random.choice([self.random.randint(least, most), self.random.randint(max(least, -99), 99)])
        return f"{number}{kind}", 1

    def text(self):
        length = self.random.choice([0, 1, 3, 4, 5, 6, 8, 12, 20])
        text = "".join(self.random.choice("abcdefghijklmnopqrstuvwxyz  -.0123456789") for _ in range(length))
        if self.random.random() < 0.1:
            text += self.random.choice(["\\n", '\\"', "é", "⛄"])
        return f'"{text}"', 1

    def bytes(self, nulls=0.1):
        if self.random.random() < nulls:
            return "null", 1
        return tuple_of([self.integer("u8", 255) for _ in range(self.random.randint(0, 8))])

    def struct(self):
        return tuple_of([self.integer(), self.text(), self.bytes()])

    def entry(self):
        self.entries += 1
        key = f'"key{self.entries * 7919 % 100_000:05}"', 1
        return tuple_of([key, ("null", 1) if self.random.random() < 0.2 else self.integer("i64")])

    def union(self):
        type_id, make = self.random.choice([(0, self.integer), (3, self.text), (7, self.bytes)])
        text, nodes = make()
        return f"{type_id}({text})", nodes + 1

    def variant(self):
        dtype, make = self.random.choice([
            (f"i32{self.q}", self.integer),
            (f"utf8{self.q}", self.text),
            ("list(u8)?", lambda: self.bytes(0)),
            (f"{{a: i32, b: utf8{self.q}, c: list(u8)?}}", self.struct),
            ("null", lambda: ("null", 1)),
        ])
        text, nodes = make()
        return f"<{dtype}:{text}>", nodes + 1


def fan(nodes):
    """Returns how many parts each of the lists within one another has."""
    return round(nodes ** (1 / DEPTH))


def nested(values, nodes, last, depth=DEPTH):
    if depth == 0:
        return last or values.integer()
    lasts = [None] * (fan(nodes) - 1) + [last]
    return tuple_of([nested(values, nodes, it, depth - 1) for it in lasts])


def lists(element, dtype="list({})"):
    for _ in range(DEPTH):
        element = dtype.format(element)
    return element


UNION = "union(0 a: i32, 3 b: utf8, 7 c: list(u8)?)"
NULLABLE_UNION = "union(0 a: i32?, 3 b: utf8?, 7 c: list(u8?)?)?"
STRUCT = "{a: i32, b: utf8, c: list(u8)?}"
NULLABLE_STRUCT = "{a: i32?, b: utf8?, c: list(u8?)?}?"
RENAMED_STRUCT = "{x: i64, y: utf8, z: list(u16)?}"
VARIANTS = [("<i32:0i32>", 2), ('<utf8:"">', 2), ("<list(u8)?:[]>", 2), ("<null:null>", 2)]


def integers_of(values, nodes, last):
    return filled(nodes, values.integer, (f"{last}i32", 1))


def structs_of(values, nodes, last):
    last_bytes = tuple_of([(f"{last}u8", 1)])
    return filled(nodes, values.struct, tuple_of([values.integer(), values.text(), last_bytes]))


def nested_of(values, nodes, last):
    return nested(values, nodes, (f"{last}i32", 1))


def maps_of(values, nodes, last):
    return filled(nodes, values.entry, tuple_of([('"last"', 1), (f"{last}i64", 1)]))


def unions_of(values, nodes, last):
    return filled(nodes, values.union, (f"0({last}i32)", 2))


def variants_of(values, nodes, last):
    return filled(nodes, values.variant, (f"<i32{values.q}:{last}i32>", 2))


KINDS = {
    "integers": Kind(integers_of, "list(i32)", "list(i32?)?", "list(i64)", [("0i32", 1)], "i32"),
    "structs": Kind(
        structs_of,
        f"list({STRUCT})",
        f"list({NULLABLE_STRUCT})?",
        f"list({RENAMED_STRUCT})",
        [('[0i32, "", []]', 4)],
        STRUCT,
    ),
    "nested lists": Kind(nested_of, lists("i32"), lists("i32?") + "?", lists("i64"), [], ""),
    "maps": Kind(maps_of, "map(utf8, i64?)", "map(utf8, i64?)?", "map(utf8, i32?)", [("[]", 1)], "map(utf8, i64?)"),
    "unions": Kind(
        unions_of,
        f"list({UNION})",
        f"list({NULLABLE_UNION})?",
        f"list({NULLABLE_UNION})?",
        [("0(0i32)", 2)],
        UNION,
    ),
    "variants": Kind(variants_of, "list(variant)", "list(variant?)?", "list(variant?)?", VARIANTS, "variant"),
}


def zero_of(kind, nodes):
    """Returns a zero, as a scalar, with its nodes: lists of a fixed size, since other lists are zero if they are empty."""
    if not kind.zeros:
        text, made = "0i32", 1
        for _ in range(DEPTH):
            text, made = tuple_of([(text, made)] * fan(nodes))
        return f"{lists('i32', f'fsl({{}}, {fan(nodes)})')}:{text}", made
    size = nodes // kind.zeros[0][1]
    text, made = tuple_of([kind.zeros[place % len(kind.zeros)] for place in range(size)])
    return f"fsl({kind.zero_type}, {size}):{text}", made


def calls_of(name, nodes):
    """Returns the calls on values of the kind of this name. There are one of about so many nodes, one that is equal to it but for
    nullability, and one that differs at the last place too."""
    kind = KINDS[name]
    text, made = kind.make(Values(), nodes, 1)
    value = f"{kind.dtype}:{text}"
    equal, other = (f"{kind.loose}:{kind.make(Values('?'), nodes, last)[0]}" for last in (1, 2))
    zero, zero_nodes = zero_of(kind, nodes)
    orders = [
        Call("order", f"order {value} {equal}", [value, equal], made),
        Call("order, the last differs", f"order {value} {other}", [value, other], made),
    ]
    return [
        Call("validate", f"validate {value}", [], made),
        Call("clone", f"clone {value}", [], made),
        Call("equal", f"equal {value} {equal}", [], made),
        Call("equal, the last differs", f"equal {value} {other}", [], made),
        Call("hash", f"hash {value} {equal}", [], 2 * made),
        # (the order of variants is none at the first)
        *(orders if name != "variants" else []),
        Call("cast", f"cast {value} {kind.target}", [value], made),
        Call("text", f"text {value}", [], made),
        Call("size", f"size {value}", [value], made),
        Call("is_zero", f"is_zero {zero}", [zero], zero_nodes),
    ]
