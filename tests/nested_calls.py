# SPDX-License-Identifier: Apache-2.0
"""Lines of calls that nest as deep as they may, made of the stored cases.

Of each call a case is taken for each shape of what it is given. Its types and scalars are put in place by ones that nest, in each
way in which a type, a value or a filter can."""
import re

LEAF = re.compile(r"(?:null|bool|utf8|binary|variant|[ui](?:8|16|32|64))\??$")
PARTS = re.compile(r"(?:list|fsl|map|union|ext)\(.*\)\??$|\{.*\}\??$")
NUMBER = re.compile(r"-?\d+[ui]\d+$")

# What stands before and after a type, and a value of it, at each level. An extension's value is that of its storage.
TYPES = {
    "list": ("list(", ")"),
    "list?": ("list(", ")?"),
    "fsl": ("fsl(", ", 1)"),
    "struct": ("{a: ", "}"),
    "struct of two": ("{b: u8, a: ", "}"),
    "union": ("union(0 a: ", ")"),
    "map": ("map(u8, ", ")"),
    "map by its keys": ("map(", ", u8)"),
    "ext": ("ext(a, 00, ", ")"),
}
VALUES = {
    "list": ("[", "]"),
    "list?": ("[", "]"),
    "fsl": ("[", "]"),
    "struct": ("[", "]"),
    "struct of two": ("[1u8, ", "]"),
    "union": ("0(", ")"),
    "ext": ("", ""),
    # An entry is a list of its own, so a map nests half as deep as its value has brackets.
    "map": ("[[1u8, ", "]]"),
    "map by its keys": ("[[", ", 1u8]]"),
    "variant": ("<variant:", ">"),
    "variant of list": ("<list(variant?):[", "]>"),
}
HALF = ("map", "map by its keys", "variant of list")

# What a filter is asked of.
ASKED = {
    "parse": '"$1" i32',
    "truth": "i32:1i32",
    "matches": "i32:1i32",
    "matching": "i32?; [1i32], [null]",
    "outcomes": "i32:(3 rows, 0 nulls, 1i32 exact, 2i32 exact)",
    "may_match": "i32:(3 rows, 0 nulls, 1i32 exact, 2i32 exact)",
    "must_match": "i32:(3 rows, 0 nulls, 1i32 exact, 2i32 exact)",
    "matching_zones": "i32; [(3 rows, 0 nulls, 1i32 exact, 2i32 exact)]",
    "simplify": "i32:(3 rows, 0 nulls, 1i32 exact, 2i32 exact)",
    "check": "i32; i32",
    "coerce": "i32; i64",
    "clone_filter": "i32:1i32",
    "and_filter": "i32:1i32",
    "or_filter": "i32:1i32",
    "not_filter": "i32:1i32",
}


def nested(depth, around, middle):
    before, after = around
    return before * depth + middle + after * depth


def type_of(form, depth):
    if form.startswith("variant"):
        return "variant"
    return nested(depth // 2 if form in HALF else depth, TYPES[form], "u8")


def value_of(form, depth):
    return nested(depth // 2 if form in HALF else depth, VALUES[form], "null" if form.startswith("variant") else "1u8")


def pieces(text):
    """Cuts a text at spaces, semicolons and commas outside of brackets and quotes, and keeps what cuts."""
    found, open_brackets, quote, piece, escaped = [], 0, None, "", False
    for letter in text:
        if quote:
            escaped = letter == "\\" and not escaped
            quote = None if letter == quote and not escaped else quote
        elif letter in "\"'":
            quote = letter
        else:
            open_brackets += (letter in "([{<") - (letter in ")]}>")
            if open_brackets <= 0 and letter in " ;,":
                found += [piece, letter]
                piece = ""
                continue
        piece += letter
    return [part for part in [*found, piece] if part]


def cut_type(piece):
    """The type at the front of a piece, and what follows the colon after it, if there is one."""
    open_brackets = 0
    for place, letter in enumerate(piece):
        open_brackets += (letter in "([{") - (letter in ")]}")
        if letter == ":" and open_brackets == 0:
            return piece[:place], piece[place + 1 :]
    return piece, None


def is_type(text):
    return bool(LEAF.match(text) or PARTS.match(text))


def deepened_piece(piece, form, depth, of_lists):
    """A piece with its types and values in place by ones that nest, and a letter for what it is."""
    of, value = cut_type(piece)
    one = value_of(form, depth)
    if is_type(of) and value is None:
        return type_of(form, depth), "T"
    if is_type(of) and value.startswith("("):
        return f"{type_of(form, depth)}:(4 rows, 0 nulls, {one} exact, {one} exact)", "Z"
    if is_type(of):
        return f"{type_of(form, depth)}:{one}", "S"
    if piece.startswith("[") and any(is_type(cut_type(inner)[0]) for inner in pieces(piece[1:-1])):
        inner, shape = deepened(piece[1:-1], form, depth, of_lists)
        return f"[{inner}]", f"[{shape}]"
    if piece.startswith("("):
        return f"(0 a: {type_of(form, depth)})", "T"
    if of_lists and piece.startswith("[") and len(piece) > 2:
        return f"[{value_of(form, depth - 1)}]", "L"
    if NUMBER.match(piece) or piece in ("true", "false") or piece.startswith("["):
        return one, "V"
    return piece, piece if len(piece) < 2 else "w"


def deepened(given, form, depth, of_lists=False):
    """What a call is given, nested so deep, and its shape. Either a list is a value, or its item is one."""
    parts = [deepened_piece(piece, form, depth, of_lists) for piece in pieces(given)]
    return "".join(text for text, _ in parts), "".join(shape for _, shape in parts)


def filters(depth):
    """Texts of filters that nest so deep, by how."""
    return {
        "not": nested(depth, ("not ", ""), "$1 = 1"),
        "parentheses": nested(depth, ("(", ")"), "$1 = 1"),
        "and": " and ".join(["$1 = 1"] * (depth + 1)),
        "or": " or ".join(["$1 = 1"] * (depth + 1)),
        "and, not": nested(depth // 3, ("$1 = 1 and not (", ")"), "$1 = 2"),
        "or, and": nested(depth // 3, ("($1 = 1 or $1 = 3 and ", ")"), "$1 = 2"),
        "in": nested(depth, ("(", ")"), "$1 in (1, 2, null)"),
        "many literals": f"$1 in ({', '.join(map(str, range(depth * 20)))})",
    }


def lines(cases, depth):
    """The lines, each with its call, its shape and how it nests."""
    seen = set()
    for case in cases:
        call, _, given = case.partition(" ")
        if call in ASKED:
            continue
        for form in VALUES:
            for of_lists in (False, True):
                text, shape = deepened(given, form, depth, of_lists)
                if (call, shape, form) not in seen and set(shape) & set("TSVZL"):
                    seen.add((call, shape, form))
                    yield call, shape, form, f"{call} {text}"
    for form, text in filters(depth).items():
        for call, rest in ASKED.items():
            yield call, "filter", form, f"{call} {text}; {rest}"
