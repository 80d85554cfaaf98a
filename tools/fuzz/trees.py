"""JSON values as trees, and documents as bytes: written from docs/FORMAT.md alone.

A null is None, a Boolean a bool, a string a str, an array a list, an object a dict whose keys are sorted by their bytes. A number
keeps its variant, and an extension value its payload.
"""

import struct
from dataclasses import dataclass
from fractions import Fraction

SCALAR, OBJECT, ARRAY = 0x20000000, 0x40000000, 0x80000000
NULL, STRING, NUMBER, FALSE, TRUE, CONTAINER, EXTENSION = (n << 28 for n in range(7))
EXTENSION_LENGTHS = {0x10: 5, 0x20: 9, 0x30: 13, 0x40: 17}
FLOAT_TAGS = (0x10, 0x20, 0x30, 0x60)


@dataclass(frozen=True)
class Number:
    variant: str  # "i64", "u64", "d64" or "d128"
    coefficient: int
    scale: int = 0

    @property
    def value(self):
        return Fraction(self.coefficient, 10**self.scale)


ZERO = Number("u64", 0)


@dataclass(frozen=True)
class Extension:
    payload: bytes


class Invalid(Exception):
    """The bytes are not a document. `unsupported`: they would be one if each float and 256-bit decimal were a number."""

    def __init__(self, unsupported=False):
        super().__init__()
        self.unsupported = unsupported


def number(variant, coefficient, scale=0):
    return Number(variant, coefficient, scale) if coefficient else ZERO


# ---- bytes to trees


class Reader:
    """Decodes a document, and remembers whether it met a float or a 256-bit decimal."""

    def __init__(self):
        self.unsupported = False

    def document(self, data):
        header = word_at(data, 0)
        if header == SCALAR:
            word = word_at(data, 4)
            if word >> 28 == CONTAINER >> 28:
                raise Invalid
            return self.content(word, rest_of(data, 8, word & 0x0FFFFFFF))
        return self.container(data)

    def container(self, data):
        header = word_at(data, 0)
        kind, count = header & 0xE0000000, header & 0x1FFFFFFF
        if kind not in (OBJECT, ARRAY):
            raise Invalid
        entries = 2 * count if kind == OBJECT else count
        if len(data) < 4 + 4 * entries:
            raise Invalid
        words = struct.unpack(f">{entries}I", data[4 : 4 + 4 * entries])
        if len(data) != 4 + 4 * entries + sum(word & 0x0FFFFFFF for word in words):
            raise Invalid
        values, at = [], 4 + 4 * entries
        for place, word in enumerate(words):
            length = word & 0x0FFFFFFF
            if kind == OBJECT and place < count and word >> 28 != STRING >> 28:
                raise Invalid
            values.append(self.content(word, data[at : at + length]))
            at += length
        if kind == ARRAY:
            return values
        keys = values[:count]
        if any(a.encode() >= b.encode() for a, b in zip(keys, keys[1:])):
            raise Invalid
        return dict(zip(keys, values[count:]))

    def content(self, word, content):
        kind = word & 0xF0000000
        if kind in (NULL, FALSE, TRUE):
            if content:
                raise Invalid
            return {NULL: None, FALSE: False, TRUE: True}[kind]
        if kind == STRING:
            try:
                return content.decode()
            except UnicodeDecodeError as error:
                raise Invalid from error
        if kind == NUMBER:
            return self.number(content)
        if kind == CONTAINER:
            return self.container(content)
        if kind == EXTENSION and content and (content[0] == 0 or EXTENSION_LENGTHS.get(content[0]) == len(content)):
            return Extension(content)
        raise Invalid

    def number(self, payload):
        if payload == b"\x00":
            return ZERO
        tag, rest = payload[:1], payload[1:]
        if tag in (b"\x40", b"\x50") and len(rest) in (1, 2, 4, 8):
            return number("i64" if tag == b"\x40" else "u64", int.from_bytes(rest, "big", signed=tag == b"\x40"))
        if tag == b"\x70" and len(rest) in (9, 17):
            return number("d64" if len(rest) == 9 else "d128", int.from_bytes(rest[:-1], "big", signed=True), rest[-1])
        if payload and (payload[0] in FLOAT_TAGS or tag == b"\x70" and len(rest) == 33):
            self.unsupported = True
            return ZERO
        raise Invalid


def word_at(data, at):
    if len(data) < at + 4:
        raise Invalid
    return struct.unpack(">I", data[at : at + 4])[0]


def rest_of(data, at, length):
    if len(data) != at + length:
        raise Invalid
    return data[at:]


def decode(data):
    """Returns the tree of a document, or raises Invalid."""
    reader = Reader()
    tree = reader.document(data)
    if reader.unsupported:
        raise Invalid(unsupported=True)
    return tree


# ---- trees to bytes


def integer_payload(tag, value, signed, widths):
    for width in widths:
        try:
            return bytes([tag]) + value.to_bytes(width, "big", signed=signed)
        except OverflowError:
            pass
    raise ValueError(value)


def payload_of(it, widths):
    if it.coefficient == 0:
        return b"\x00"
    if it.variant in ("i64", "u64"):
        signed = it.variant == "i64"
        return integer_payload(0x40 if signed else 0x50, it.coefficient, signed, widths())
    return b"\x70" + it.coefficient.to_bytes(8 if it.variant == "d64" else 16, "big", signed=True) + bytes([it.scale])


def shortest():
    return 1, 2, 4, 8


def entry_of(tree, widths):
    """Returns the entry word and the content of a tree."""
    if tree is None or isinstance(tree, bool):
        return {None: NULL, False: FALSE, True: TRUE}[tree], b""
    if isinstance(tree, str):
        kind, content = STRING, tree.encode()
    elif isinstance(tree, Number):
        kind, content = NUMBER, payload_of(tree, widths)
    elif isinstance(tree, Extension):
        kind, content = EXTENSION, tree.payload
    else:
        kind, content = CONTAINER, container_of(tree, widths)
    return kind | len(content), content


def container_of(tree, widths):
    parts = tree if isinstance(tree, list) else [*tree.keys(), *tree.values()]
    entries = [entry_of(it, widths) for it in parts]
    header = (ARRAY if isinstance(tree, list) else OBJECT) | len(tree)
    return struct.pack(f">{1 + len(entries)}I", header, *(word for word, _ in entries)) + b"".join(it for _, it in entries)


def encode(tree, widths=shortest):
    """Returns the document of a tree; the canonical one, unless `widths` returns other widths to try for an integer."""
    if isinstance(tree, (list, dict)):
        return container_of(tree, widths)
    word, content = entry_of(tree, widths)
    return struct.pack(">II", SCALAR, word) + content


def object_of(pairs):
    """Returns the object of these pairs, the last of each key, sorted."""
    return dict(sorted(dict(pairs).items(), key=lambda pair: pair[0].encode()))
