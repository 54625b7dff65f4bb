# SPDX-License-Identifier: Apache-2.0
"""The layout of docs/KEYS.md in Python, written from that page alone: keys of values, and back. With it the scalars of lines are
read and written, and the order of values is that of tuples that Python compares.

A type is a named tuple; a value is None, a bool, an int, a str, bytes, a list of parts, or a Union.
"""
from collections import namedtuple

Null = namedtuple("Null", "")
Bool = namedtuple("Bool", "nullable")
Int = namedtuple("Int", "name nullable")
Utf8 = namedtuple("Utf8", "nullable")
Binary = namedtuple("Binary", "nullable")
Variant = namedtuple("Variant", "nullable")
ListOf = namedtuple("ListOf", "element nullable")
Sized = namedtuple("Sized", "element size nullable")
Map = namedtuple("Map", "key value sorted nullable")
Struct = namedtuple("Struct", "names types nullable")
UnionOf = namedtuple("UnionOf", "ids names types nullable")
Extension = namedtuple("Extension", "id metadata storage")
Union = namedtuple("Union", "id child")
# A value of the type Variant, which has no key.
Inner = namedtuple("Inner", "dtype value")
Options = namedtuple("Options", "descending nulls_first")
PLAIN = Options(False, True)
INTEGERS = [sign + width for sign in "iu" for width in ("8", "16", "32", "64")]


class BadLine(Exception):
    pass


class BadKey(Exception):
    """The bytes begin with no key: the place of the first byte that no key has there."""

    def __init__(self, place):
        super().__init__(place)
        self.place = place


def limits(name):
    bits = int(name[1:])
    return (-(2 ** (bits - 1)), 2 ** (bits - 1) - 1) if name[0] == "i" else (0, 2**bits - 1)


def is_nullable(dtype):
    while isinstance(dtype, Extension):
        dtype = dtype.storage
    return isinstance(dtype, Null) or dtype.nullable


def types_in(dtype):
    match dtype:
        case ListOf(element, _) | Sized(element, _, _) | Extension(_, _, element):
            return [element]
        case Map(key, value, _, _):
            return [key, value]
        case Struct(_, types, _) | UnionOf(_, _, types, _):
            return types
    return []


def has_variant(dtype):
    return isinstance(dtype, Variant) or any(map(has_variant, types_in(dtype)))


def has_present(dtype):
    """Whether the type has a value that is no null: a union without variants has none."""
    match dtype:
        case Null() | Variant():
            return False
        case Sized(element, size, _):
            return size == 0 or has_value(element)
        case Struct(_, types, _):
            return all(map(has_value, types))
        case UnionOf(_, _, types, _):
            return any(map(has_value, types))
        case Extension(_, _, storage):
            return has_present(storage)
    return True


def has_value(dtype):
    return is_nullable(dtype) or has_present(dtype)


# Keys


def whole_key(number):
    size = (abs(number).bit_length() + 7) // 8
    digits = abs(number).to_bytes(size, "big")
    return bytes([12 - size]) + inverted(digits) if number < 0 else bytes([12 + size]) + digits


def inverted(key):
    return bytes(255 - byte for byte in key)


def escaped(text):
    return text.replace(b"\x01", b"\x01\x02").replace(b"\0", b"\x01\x01") + b"\0"


def key(value):
    match value:
        case None:
            return b"\x01"
        case bool():
            return b"\x03" if value else b"\x02"
        case int():
            return whole_key(value)
        case str():
            return b"\x15" + escaped(value.encode())
        case bytes():
            return b"\x16" + escaped(value)
        case Union(id, child):
            return bytes([24, id]) + key(child)
        case list():
            return b"\x17" + b"".join(map(key, value)) + b"\0"
    raise ValueError(value)


def column_key(value, options=PLAIN):
    if value is None:
        return b"\x01" if options.nulls_first else b"\xff"
    return inverted(key(value)) if options.descending else key(value)


def row_key(values, options):
    return b"".join(map(column_key, values, options))


# Back from keys


class Reader:
    """Reads a key. A byte is taken only if some key has it there."""

    def __init__(self, data, place=0, descending=False):
        self.data, self.place, self.descending = data, place, descending

    def peek(self):
        if self.place >= len(self.data):
            raise BadKey(len(self.data))
        byte = self.data[self.place]
        return 255 - byte if self.descending else byte

    def take(self, accepts):
        byte = self.peek()
        if not accepts(byte):
            raise BadKey(self.place)
        self.place += 1
        return byte

    def expect(self, wanted):
        self.take(lambda byte: byte == wanted)

    def at_end(self):
        if self.peek() != 0:
            return False
        self.place += 1
        return True

    def number(self, name):
        least, most = limits(name)
        # The keys of all numbers of one sign and length sort as they do: those of the kind are from one to another.
        sizes = {12} | {12 + n for n in range(1, 9) if 256 ** (n - 1) <= most} | {12 - n for n in range(1, 9) if -(256 ** (n - 1)) >= least}
        first = self.take(lambda byte: byte in sizes)
        size = abs(first - 12)
        lower, upper = (256 ** (size - 1), min(most, 256**size - 1)) if first > 12 else (256 ** (size - 1) if size else 0, min(-least, 256**size - 1))
        number = 0
        for left in range(size - 1, -1, -1):
            def fits(byte):
                digit = 255 - byte if first < 12 else byte
                begun = number * 256 + digit
                return begun * 256**left <= upper and (begun + 1) * 256**left - 1 >= lower
            byte = self.take(fits)
            number = number * 256 + (255 - byte if first < 12 else byte)
        return -number if first < 12 else number

    def string(self, is_text):
        made = bytearray()
        while True:
            byte = self.peek()
            # A byte 1 stands before one that was 0 or 1, each a character of its own.
            begun = made if byte == 0 else made + bytes([0 if byte == 1 else byte])
            if is_text and not begins_text(begun, is_whole=byte == 0):
                raise BadKey(self.place)
            self.place += 1
            if byte == 0:
                return bytes(made)
            made.append(self.take(lambda escape: escape in (1, 2)) - 1 if byte == 1 else byte)

    def optional(self, dtype):
        if self.peek() == 1:
            if not is_nullable(dtype):
                raise BadKey(self.place)
            self.place += 1
            return None
        return self.value(dtype)

    def value(self, dtype):
        if not has_present(dtype):
            raise BadKey(self.place)
        match dtype:
            case Bool():
                return self.take(lambda byte: byte in (2, 3)) == 3
            case Int(name, _):
                return self.number(name)
            case Utf8():
                self.expect(21)
                return self.string(True).decode()
            case Binary():
                self.expect(22)
                return self.string(False)
            case Extension(_, _, storage):
                return self.value(storage)
            case UnionOf(ids, _, types, _):
                self.expect(24)
                id = self.take(lambda byte: byte in ids and has_value(types[ids.index(byte)]))
                return Union(id, self.optional(types[ids.index(id)]))
            case ListOf() | Sized() | Map() | Struct():
                self.expect(23)
                return self.parts(dtype)

    def parts(self, dtype):
        match dtype:
            case ListOf(element, _):
                made = []
                while not self.at_end():
                    made.append(self.optional(element))
                return made
            case Map(of_key, of_value, _, _):
                made = []
                while not self.at_end():
                    if not (has_value(of_key) and has_value(of_value)):
                        raise BadKey(self.place)
                    self.expect(23)
                    made.append([self.optional(of_key), self.optional(of_value)])
                    self.expect(0)
                return made
            case Sized(element, size, _):
                made = []
                for _ in range(size):
                    made.append(self.optional(element))
            case Struct(_, types, _):
                made = [self.optional(part) for part in types]
        self.expect(0)
        return made


def begins_text(data, is_whole):
    """Whether these bytes are UTF-8, or may begin a string that is."""
    try:
        data.decode()
        return True
    except UnicodeDecodeError as error:
        return not is_whole and error.reason == "unexpected end of data"


def decoded(dtype, data, options=PLAIN, place=0):
    """Returns the value whose key stands at this place, and the place after it."""
    if place < len(data) and data[place] == (1 if options.nulls_first else 255):
        if is_nullable(dtype):
            return None, place + 1
        raise BadKey(place)
    reader = Reader(data, place, options.descending)
    value = reader.value(dtype)
    return value, reader.place


def decoded_row(types, data, options):
    if not all(map(has_value, types)):
        raise BadKey(0)
    values, place = [], 0
    for dtype, each in zip(types, options):
        value, place = decoded(dtype, data, each, place)
        values.append(value)
    return values, place


# The order of values of one type: by this, as Python compares tuples and lists; unions of different ids by their ids


def order(value):
    match value:
        case None:
            return (0,)
        case str():
            return (1, value.encode())
        case Union(id, child):
            return (1, id, order(child))
        case list():
            return (1, [order(part) for part in value])
    return (1, value)


# Lines


def quoted(text):
    made = []
    for character in text:
        short = {"\\": "\\\\", '"': '\\"', "\n": "\\n", "\r": "\\r", "\t": "\\t"}.get(character)
        made.append(short or (f"\\u{{{ord(character):x}}}" if ord(character) < 32 or ord(character) == 127 else character))
    return f'"{"".join(made)}"'


def name_text(name):
    is_word = name and not name[0].isdigit() and all(c.isascii() and (c.isalnum() or c == "_") for c in name)
    return name if is_word else quoted(name)


def type_text(dtype):
    mark = "?" if getattr(dtype, "nullable", False) else ""
    match dtype:
        case Null():
            return "null"
        case Int(name, _):
            return name + mark
        case Bool() | Utf8() | Binary() | Variant():
            return type(dtype).__name__.lower() + mark
        case ListOf(element, _):
            return f"list({type_text(element)}){mark}"
        case Sized(element, size, _):
            return f"fsl({type_text(element)}, {size}){mark}"
        case Map(of_key, of_value, is_sorted, _):
            return f"map({type_text(of_key)}, {type_text(of_value)}{', sorted' if is_sorted else ''}){mark}"
        case Struct(names, types, _):
            fields = (f"{name_text(name)}: {type_text(part)}" for name, part in zip(names, types))
            return f"{{{', '.join(fields)}}}{mark}"
        case UnionOf(ids, names, types, _):
            variants = (f"{id} {name_text(name)}: {type_text(part)}" for id, name, part in zip(ids, names, types))
            return f"union({', '.join(variants)}){mark}"
        case Extension(id, metadata, storage):
            return f"ext({name_text(id)}, {metadata.hex()}, {type_text(storage)})"
    raise ValueError(dtype)


def value_text(dtype, value):
    """Returns the raw value as a line has it."""
    while isinstance(dtype, Extension):
        dtype = dtype.storage
    match value:
        case None:
            return "null"
        case bool():
            return "true" if value else "false"
        case int():
            return f"{value}{dtype.name}"
        case str():
            return quoted(value)
        case bytes():
            return "x" + value.hex()
        case Union(id, child):
            return f"{id}({value_text(dtype.types[dtype.ids.index(id)], child)})"
    match dtype:
        case Map(of_key, of_value, _, _):
            parts = (f"[{value_text(of_key, entry[0])}, {value_text(of_value, entry[1])}]" for entry in value)
        case Struct(_, types, _):
            parts = map(value_text, types, value)
        case _:
            parts = (value_text(dtype.element, part) for part in value)
    return f"[{', '.join(parts)}]"


def scalar_text(dtype, value):
    return f"{type_text(dtype)}:{value_text(dtype, value)}"


class Tokens:
    """Reads a line."""

    def __init__(self, text):
        self.text, self.place = text, 0

    def peek(self):
        while self.text[self.place : self.place + 1] == " ":
            self.place += 1
        return self.text[self.place : self.place + 1]

    def takes(self, token):
        self.peek()
        if not self.text.startswith(token, self.place):
            return False
        self.place += len(token)
        return True

    def expect(self, token):
        if not self.takes(token):
            raise BadLine(self.text)

    def word(self):
        self.peek()
        start = self.place
        while self.place < len(self.text) and (self.text[self.place].isascii() and self.text[self.place].isalnum() or self.text[self.place] == "_"):
            self.place += 1
        return self.text[start : self.place]

    def takes_word(self, word):
        before = self.place
        if self.word() == word:
            return True
        self.place = before
        return False

    def items(self, close, read):
        made = []
        while not self.takes(close):
            if made:
                self.expect(",")
            made.append(read())
        return made

    def string(self):
        self.expect('"')
        made = []
        while True:
            character = self.text[self.place]
            self.place += 1
            if character == '"':
                return "".join(made)
            if character == "\\":
                character = self.text[self.place]
                self.place += 1
                if character == "u":
                    close = self.text.index("}", self.place)
                    character = chr(int(self.text[self.place + 1 : close], 16))
                    self.place = close + 1
                else:
                    character = {"n": "\n", "r": "\r", "t": "\t"}.get(character, character)
            made.append(character)

    def name(self):
        return self.string() if self.peek() == '"' else self.word()

    def nullable(self):
        return self.takes("?")

    def field(self):
        name = self.name()
        self.expect(":")
        return name, self.dtype()

    def variant(self):
        return int(self.word()), *self.field()

    def dtype(self):
        if self.takes("{"):
            fields = self.items("}", self.field)
            return Struct([name for name, _ in fields], [dtype for _, dtype in fields], self.nullable())
        word = self.word()
        if word == "null":
            return Null()
        if word in INTEGERS:
            return Int(word, self.nullable())
        if word in ("bool", "utf8", "binary", "variant"):
            return {"bool": Bool, "utf8": Utf8, "binary": Binary, "variant": Variant}[word](self.nullable())
        self.expect("(")
        if word == "union":
            variants = self.items(")", self.variant)
            return UnionOf(*([variant[n] for variant in variants] for n in range(3)), self.nullable())
        if word == "ext":
            id = self.name()
            self.expect(",")
            metadata = bytes.fromhex(self.word())
            self.expect(",")
            storage = self.dtype()
            self.expect(")")
            return Extension(id, metadata, storage)
        parts = [self.dtype()]
        is_sorted = False
        while self.takes(","):
            if word == "fsl":
                parts.append(int(self.word()))
            elif self.takes_word("sorted"):
                is_sorted = True
            else:
                parts.append(self.dtype())
        self.expect(")")
        if word == "map":
            return Map(*parts, is_sorted, self.nullable())
        return {"list": ListOf, "fsl": Sized}[word](*parts, self.nullable())

    def value(self):
        """Reads a raw value."""
        head = self.peek()
        if head == '"':
            return self.string()
        if self.takes("["):
            return self.items("]", self.value)
        if self.takes("<"):
            inner = Inner(*self.scalar())
            self.expect(">")
            return inner
        sign = -1 if self.takes("-") else 1
        word = self.word()
        if word in ("null", "true", "false"):
            return {"null": None, "true": True, "false": False}[word]
        if word[0] == "x":
            return bytes.fromhex(word[1:])
        if word.isdigit():
            self.expect("(")
            child = self.value()
            self.expect(")")
            return Union(int(word), child)
        return sign * int(word[: -2 if word[-2] in "iu" else -3])

    def scalar(self):
        dtype = self.dtype()
        self.expect(":")
        return dtype, self.value()

    def bytes(self):
        return bytes.fromhex(self.word()[1:])

    def options(self):
        descending = self.takes_word("desc")
        return Options(descending, not self.takes_word("nulls_last"))

    def columns(self, read):
        """Reads what each column has, and the options of each; an underscore stands for what is missing."""
        contents, options = [], []
        while True:
            if not self.takes("_"):
                contents.append(read())
            if not self.takes("_"):
                options.append(self.options())
            if not self.takes(";"):
                return contents, options
