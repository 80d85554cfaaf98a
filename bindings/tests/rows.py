#!/usr/bin/env python3
"""The example rows as calls of the C library: arguments and expected results.

    bindings/tests/rows.py > FILE     a line for each row, for bindings/c/tests/rows.c

Results are documents that were written by hand from the format, or JSON text that tools/documents.py converts to
documents; it is written from docs/FORMAT.md and shares nothing with the library. A line is the call, its arguments, `=`,
the status and the result; bytes are in hexadecimal, and `-` is empty.
"""

import os
import struct
import sys
from dataclasses import dataclass

sys.path.insert(0, os.path.join(os.path.dirname(os.path.abspath(__file__)), "..", "..", "tools"))
sys.dont_write_bytecode = True
import documents

OK, NONE = "JDOC_OK", "JDOC_NONE"
STRICT_PATH, PATH_FAILED = "JDOC_STRICT_PATH", "JDOC_PATH_FAILED"
INVALID_JSON_PATH, INVALID_KEY_PATH = "JDOC_INVALID_JSON_PATH", "JDOC_INVALID_KEY_PATH"
INVALID_JSONB, UNSUPPORTED_NUMBER = "JDOC_INVALID_JSONB", "JDOC_UNSUPPORTED_NUMBER"
BAD_OFFSETS, NOT_UTF8 = "JDOC_BAD_OFFSETS", "JDOC_NOT_UTF8"
FALSE, TRUE, UNKNOWN = 0, 1, 2


@dataclass
class Row:
    call: str
    arguments: tuple
    status: str
    answer: object = None

    def line(self):
        words = [self.call, *(word for it in self.arguments for word in words_of(it)), "=", self.status]
        return " ".join(words + ([] if self.answer is None else words_of(self.answer)))


class Names(list):
    """A column of strings or of documents."""


class Parts(tuple):
    """The halves of an integer, and a scale."""


@dataclass
class Placed:
    """A column with these offsets, which may be invalid."""

    bytes: bytes
    positions: tuple


def words_of(it):
    if isinstance(it, Placed):
        return [hexadecimal(it.bytes), ",".join(map(str, it.positions))]
    if isinstance(it, Parts):
        return [",".join(map(str, it))]
    if isinstance(it, Names):
        rows = [row.encode() if isinstance(row, str) else row for row in it]
        ends = [sum(map(len, rows[:count])) for count in range(len(rows) + 1)]
        return [hexadecimal(b"".join(rows)), ",".join(map(str, ends))]
    if isinstance(it, str):
        it = it.encode("utf-8", "surrogateescape")
    return [hexadecimal(it)] if isinstance(it, bytes) else [str(int(it))]


def hexadecimal(it):
    return it.hex() or "-"


def json(text):
    """The document of a JSON text."""
    return documents.encode(documents.read(text))


def number(value):
    return documents.encode(value)


def decimal(scale, value, width=8):
    """A decimal as a document, of this width."""
    payload = b"\x70" + value.to_bytes(width, "big", signed=True) + bytes([scale])
    return bytes.fromhex("20000000") + (0x20000000 + len(payload)).to_bytes(4, "big") + payload


def nested(depth):
    """Nested arrays of this depth."""
    document = bytes.fromhex("80000000")
    for _ in range(depth - 1):
        document = bytes.fromhex("80000001") + (0x50000000 + len(document)).to_bytes(4, "big") + document
    return document


V = {
    name: bytes.fromhex(text)
    for name, text in {
        1: "80000003 30000000 20000002 5000000e 500a 40000001 10000001 10000001 6b 76",
        2: "80000003 20000002 20000002 20000002 500a 5014 501e",
        3: "80000002 20000002 10000001 5001 61",
        4: "80000002 10000001 20000002 61 5001",
        5: "80000001 20000002 5001",
        6: "80000002 20000002 20000002 5001 40fe",
        7: "80000001 20000009 50ffffffffffffffff",
        8: "80000004 20000002 20000002 20000002 2000000a 5001 5001 5002 70000000000000000a01",
        9: "80000001 5000000a 80000001 20000002 5001",
        10: "40000002 10000001 10000001 00000000 50000008 61 62 80000001 00000000",
        11: "40000002 10000004 10000006 10000004 5000005a 6e616d65 70686f6e6573 46726564 80000002 50000027 50000027"
        "40000002 10000006 10000004 20000005 10000004 6e756d626572 74797065 500038c505 686f6d65"
        "40000002 10000006 10000004 20000005 10000004 6e756d626572 74797065 50004d3da3 776f726b",
        12: "20000000 60000005 1000000001",
        13: "80000002 30000000 40000000",
        14: "40000002 10000006 10000004 20000005 10000004 6e756d626572 74797065 500038c505 686f6d65",
        15: "40000001 10000003 10000003 617364 616466",
    }.items()
}
EMPTY_ARRAY = bytes.fromhex("80000000")
FLOAT = bytes.fromhex("2000000020000009603ff8000000000000")
DAMAGED = bytes.fromhex("800000")


def table(call, rows):
    """Rows of one call: its arguments, and then its result, or its status if there is no result."""
    for *arguments, answer in rows:
        is_status = isinstance(answer, str)
        yield Row(call, tuple(arguments), answer if is_status else OK, None if is_status else answer)


def selections(strict, rows):
    """Rows of one path on one document: the list that it selects as a JSON text, or a status, by all calls that select."""
    for path, document, answer in rows:
        words = (document, path, strict)
        if answer.startswith("JDOC_"):
            for call in ("select_value", "select_first", "select_array", "exists"):
                yield Row(call, words, answer)
            continue
        array = documents.read(answer)
        first, several = (Row(call, words, NONE) for call in ("select_first", "select_value"))
        if array:
            first = Row("select_first", words, OK, documents.encode(array[0]))
            several = Row("select_value", words, OK, documents.encode(array[0] if len(array) == 1 else array))
        yield from (first, several)
        yield Row("select_array", words, OK, documents.encode(array))
        yield Row("exists", words, OK, bool(array))


def places():
    yield from table("get_by_keypath", [
        (V[1], "{2,k}", json('"v"')), (V[1], "{-1,k}", json('"v"')), (V[1], "{}", V[1]), (V[1], "{3}", NONE),
        (V[1], "{-4}", NONE), (V[1], "{1a}", INVALID_KEY_PATH), (FLOAT, "{}", UNSUPPORTED_NUMBER),
        (DAMAGED, "{1a}", INVALID_KEY_PATH), (DAMAGED, "{}", INVALID_JSONB), (V[1], "{", INVALID_KEY_PATH),
        (V[1], "ab", INVALID_KEY_PATH), (V[1], "{1,}", INVALID_KEY_PATH), (V[1], "{+1}", json("10")),
        (V[1], " { 2, k } ", json('"v"')), (V[1], '{"a', INVALID_KEY_PATH), (V[10], r"{\u{0061}}", json("null")),
        (V[1], r"{a\u{12}}", INVALID_KEY_PATH), (V[1], b"{\xff}", INVALID_KEY_PATH), (V[2], "{-2147483648}", NONE),
        (json('{"99999999999":7}'), "{99999999999}", json("7")), (V[1], "", INVALID_KEY_PATH),
        (nested(300), "{" + ",".join(["0"] * 299) + "}", EMPTY_ARRAY),
    ])
    yield from table("get_by_index", [(V[1], 1, json("10")), (V[1], 2, json('{"k":"v"}')), (V[1], 3, NONE), (V[10], 0, NONE)])
    yield from table("get_by_name", [
        (V[15], "ASD", True, json('"adf"')), (V[15], "ASD", False, NONE), (V[15], "asd", False, json('"adf"')),
        (V[1], "k", False, NONE), (V[15], b"\xff", False, NOT_UTF8),
    ])
    yield from table("delete_by_name", [
        (V[3], "a", V[5]), (number(5), "a", "JDOC_INVALID_JSON_TYPE"), (V[10], "a", json('{"b":[null]}')),
        (V[3], b"\xff", NOT_UTF8),
    ])
    yield from table("delete_by_index", [
        (V[5], -2147483648, V[5]), (V[2], -1, json("[10,20]")), (V[2], 0, json("[20,30]")), (V[2], 3, V[2]),
        (V[10], 0, "JDOC_INVALID_JSON_TYPE"),
    ])
    yield from table("delete_by_keypath", [
        (V[1], "{2,k}", bytes.fromhex("80000003300000002000000250000004500a40000000")), (V[1], "{7}", V[1]),
        (number(5), "{7}", "JDOC_INVALID_JSON_TYPE"), (V[12], "{0}", V[12]), (V[1], "{", INVALID_KEY_PATH),
    ])


def edits():
    nine, one = number(9), number(1)
    yield from table("array_insert", [
        (V[5], nine, -2147483648, bytes.fromhex("80000002200000022000000250095001")),
        (V[5], nine, 2147483647, bytes.fromhex("80000002 20000002 20000002 5001 5009")),
        (one, nine, -1, bytes.fromhex("80000002 20000002 20000002 5009 5001")), (V[5], DAMAGED, 0, INVALID_JSONB),
    ])
    yield from table("object_insert", [
        (V[15], one, "b", False, bytes.fromhex("40000002 10000003 10000001 10000003 20000002 617364 62 616466 5001")),
        (V[15], one, "asd", False, "JDOC_OBJECT_DUPLICATE_KEY"),
        (V[15], one, "asd", True, bytes.fromhex("40000001 10000003 20000002 617364 5001")),
        (V[5], one, "a", True, "JDOC_INVALID_OBJECT"), (V[15], one, b"\xff", True, NOT_UTF8),
    ])
    yield from table("concat", [
        (V[5], V[9], bytes.fromhex("80000002 20000002 5000000a 5001 80000001 20000002 5001")),
        (number(1), number(2), bytes.fromhex("80000002 20000002 20000002 5001 5002")),
        (json('{"a":1,"b":2}'), json('{"b":3}'), json('{"a":1,"b":3}')), (V[5], DAMAGED, INVALID_JSONB),
    ])
    yield from table("strip_nulls", [
        (V[10], bytes.fromhex("400000011000000150000008628000000100000000")), (json("null"), json("null")),
        (nested(300), nested(300)),
    ])
    yield from table("object_pick", [
        (V[10], Names(["a"]), bytes.fromhex("40000001 10000001 00000000 61")), (V[10], Names(), json("{}")),
        (V[10], Names(["b", "c", "b"]), json('{"b":[null]}')), (V[5], Names(["a"]), "JDOC_INVALID_OBJECT"),
        (V[10], Names([b"\xff"]), NOT_UTF8),
    ])
    yield from table("object_delete", [
        (V[10], Names(["a"]), bytes.fromhex("40000001 10000001 50000008 62 80000001 00000000")),
        (V[10], Names(), V[10]), (V[5], Names(["a"]), "JDOC_INVALID_OBJECT"),
    ])


def places_of_names():
    """The first name that is wrong is the status; the others are not looked at."""
    wrong = [
        (Placed(b"ab", (0, 2, 1)), BAD_OFFSETS), (Placed(b"ab", (0, 3)), BAD_OFFSETS), (Placed(b"ab", (0, 1, 2**64 - 1)), BAD_OFFSETS),
        (Placed(b"ab", (2**63, 2)), BAD_OFFSETS), (Placed(b"", (0, 1)), BAD_OFFSETS), (Placed(b"a\xff", (0, 1, 2)), NOT_UTF8),
        (Placed(b"a\xff", (0, 1, 2, 9)), NOT_UTF8), (Placed(b"a\xff", (0, 9, 1, 2)), BAD_OFFSETS),
        (Placed("é".encode(), (0, 1, 2)), NOT_UTF8),
    ]
    for call in ("exists_all_keys", "exists_any_keys", "object_pick", "object_delete"):
        yield from table(call, [(V[10], names, status) for names, status in wrong])
        yield from table(call, [(DAMAGED, names, status) for names, status in wrong[:1]])
    yield from table("object_from_columns", [
        (names, Names([number(1)] * (len(names.positions) - 1)), status) for names, status in wrong
    ])
    yield from table("exists_all_keys", [(V[10], Placed(b"zab", (1, 2, 3)), TRUE), (V[10], Placed(b"a", (0, 1, 1)), FALSE)])
    yield from table("exists_any_keys", [(V[10], Placed(b"a", (1, 1, 1)), FALSE), (V[10], Placed(b"a", (7,)), FALSE)])
    yield from table("object_pick", [(V[10], Placed(b"za", (1, 2)), bytes.fromhex("40000001 10000001 00000000 61"))])


def sets():
    yield from table("array_except", [
        (V[8], V[5], bytes.fromhex("80000003 20000002 20000002 2000000a 5001 5002 70000000000000000a01")),
        (number(1), V[5], EMPTY_ARRAY),
    ])
    yield from table("array_intersection", [(V[8], V[5], V[5])])
    yield from table("array_distinct", [(V[8], json("[1,2]")), (number(1), V[5])])
    yield from table("array_overlap", [(V[8], number(2), TRUE), (V[2], V[5], FALSE)])
    yield from table("contains", [
        (json("[1,2,[1,3]]"), json("[1,3]"), FALSE), (V[12], V[12], FALSE), (V[5], number(1), TRUE), (V[9], V[9], TRUE),
        (V[8], V[7], FALSE), (decimal(255, 10), decimal(254, 1), TRUE),
    ])
    ascending = [*map(json, ["false", "true", "-5", "1", "10", '""', '"a"', '"b"', '{}', '{"a":1}', '{"a":1,"b":0}', '{"a":2}',
                             '{"b":0}', "[]", "[1]", "[1,2]", "[2]", '["a",[1,2,3,4]]', '["a",[1,2,3,5],0]', "null"])]
    for at, document in enumerate(ascending):
        yield from table("compare", [(document, other, (at > to) - (at < to)) for to, other in enumerate(ascending)])
    yield from table("compare", [
        (decimal(1, 10), number(1), 0), (decimal(1, 255), number(25), 1), (decimal(9, 2**64, 16), decimal(9, 2**64 - 1, 16), 1),
        (V[12], V[12], 0), (V[12], json("null"), -1), (V[12], json("false"), -1),
    ])
    yield from table("exists_all_keys", [
        (number(5), Names(), TRUE), (V[10], Names(["a", "b"]), TRUE), (V[10], Names(["a", "c"]), FALSE),
        (V[3], Names(["a"]), TRUE), (json('"a"'), Names(["a"]), TRUE),
    ])
    yield from table("exists_any_keys", [
        (V[15], Names(), FALSE), (V[10], Names(["c", "a"]), TRUE), (V[10], Names(["c"]), FALSE), (number(5), Names(["5"]), FALSE),
    ])


def scalars():
    for document in V.values():
        yield Row("check", (document,), OK)
    yield from table("check", [
        (DAMAGED, INVALID_JSONB), (b"", INVALID_JSONB), (FLOAT, UNSUPPORTED_NUMBER), (V[1] + b"\0", INVALID_JSONB),
    ])
    kinds = ["null", "true", "10", None, '"a"', None, None, None, None, None, "[]", "{}"]
    yield from table("type", [(json(text), kind) for kind, text in enumerate(kinds) if text])
    yield from table("type", [
        (decimal(2, 0), 2), (decimal(2, 1234), 3), (V[12], 6), (FLOAT, UNSUPPORTED_NUMBER), (b"", INVALID_JSONB),
        (bytes.fromhex("20000000 60000002 00 ff"), 5), (bytes.fromhex("20000000 60000009 20 0000000000000001"), 7),
        (bytes.fromhex("20000000 6000000d 30 00000001 0000000000000001"), 8),
        (bytes.fromhex("20000000 60000011 40 00000001 00000002 0000000000000003"), 9),
    ])
    yield from table("as_bool", [(json("true"), TRUE), (json("false"), FALSE), (number(1), NONE)])
    yield from table("as_i64", [
        (decimal(1, 10), 1), (decimal(1, 15), NONE), (number(-5), -5), (number(2**64 - 1), NONE), (json('"1"'), NONE),
        (number(-2**63), -2**63), (FLOAT, UNSUPPORTED_NUMBER),
    ])
    yield from table("as_u64", [(number(2**64 - 1), 2**64 - 1), (number(-1), NONE), (number(0), 0)])
    yield from table("as_str", [(json('"abc"'), b"abc"), (json('""'), b""), (number(1), NONE)])
    yield from table("as_decimal", [
        (decimal(2, 1234), Parts((0, 1234, 2))), (decimal(3, -5), Parts((-1, 2**64 - 5, 3))), (decimal(9, 0), Parts((0, 0, 0))),
        (number(7), Parts((0, 7, 0))), (number(-1), Parts((-1, 2**64 - 1, 0))), (number(2**64 - 1), Parts((0, 2**64 - 1, 0))),
        (number(-2**63), Parts((-1, 2**63, 0))), (decimal(38, 2**127 - 1, 16), Parts((2**63 - 1, 2**64 - 1, 38))),
        (decimal(255, -2**127, 16), Parts((-2**63, 0, 255))), (decimal(0, 2**64, 16), Parts((1, 0, 0))),
        (decimal(1, -2**64, 16), Parts((-1, 0, 1))), (json('"1"'), NONE), (V[5], NONE), (V[12], NONE), (FLOAT, UNSUPPORTED_NUMBER),
        (DAMAGED, INVALID_JSONB),
    ])
    yield from table("to_bool", [
        (json('"YES"'), TRUE), (json('"1"'), "JDOC_INVALID_CAST"), (json("false"), FALSE), (json('"no"'), FALSE),
    ])
    yield from table("to_i64", [
        (decimal(1, 25), 3), (decimal(1, -25), -3), (json('"+5"'), 5), (json('"2.5"'), "JDOC_INVALID_CAST"),
        (number(2**64 - 1), "JDOC_INVALID_CAST"), (decimal(1, 92233720368547758075, 16), "JDOC_INVALID_CAST"),
        (json("true"), 1), (FLOAT, UNSUPPORTED_NUMBER),
    ])
    yield from table("to_u64", [
        (json('"-0"'), "JDOC_INVALID_CAST"), (decimal(1, 92233720368547758075, 16), 9223372036854775808),
        (decimal(1, -4), 0), (decimal(1, -5), "JDOC_INVALID_CAST"),
    ])
    yield from table("to_str", [
        (decimal(3, -5), b"-0.005"), (decimal(0, 7), b"7"), (decimal(1, 10), b"1.0"), (json("true"), b"true"),
        (json('"a"'), b"a"), (V[5], "JDOC_INVALID_CAST"), (FLOAT, UNSUPPORTED_NUMBER),
    ])


def keys():
    narrow = [
        (number(1), "00048103e90200"), (decimal(1, 10), "00048103e90200"), (number(-1), "00047ffc16fdff"),
        (number(0), "000480"), (decimal(2, 1234), "00048103ea0203040500"), (decimal(255, 1), "00048102ea0200"),
        (json(r'"a\u0000"'), "000561010100"), (json('{"k":"v"}'), "000601056b0001057600"), (json("null"), "0008"),
        (number(100), "00048103eb0200"), (decimal(1, 5), "00048103e80600"), (decimal(2, -1234), "00047ffc15fdfcfbfaff"),
        (number(2**64 - 1), "00048103fc 0209050507080505 01080408010a0606 0207020600"), (V[5], "0007 0104 8103e90200"),
        (json("[[1],2]"), "0007 0107 0204 8103e90200 0104 8103e90300"),
        (json("[[1,2]]"), "0007 0107 0204 8103e90200 0204 8103e90300"),
        (nested(256), "".join(f"{depth:02x}07" for depth in range(256))),
    ]
    wide = [
        (number(1), "000004 8103e90200"), (V[5], "000007 000104 8103e90200"), (json("null"), "000008"),
        (nested(257), "".join(f"{depth:04x}07" for depth in range(257))),
    ]
    yield from table("sort_key", [(document, False, bytes.fromhex(key)) for document, key in narrow])
    yield from table("sort_key", [(document, True, bytes.fromhex(key)) for document, key in wide])
    yield from table("sort_key", [(nested(257), False, "JDOC_TOO_DEEP"), (FLOAT, False, UNSUPPORTED_NUMBER)])
    missing, key = b"", bytes.fromhex("00048103e90200")
    yield from table("composite_key", [
        (Names(), False, b""), (Names([missing]), False, bytes(2)), (Names([missing]), True, bytes(3)), (Names([number(1)]), False, key),
        (Names([missing, number(1)]), False, bytes(2) + key), (Names([number(1), missing]), False, key + bytes(2)),
        (Names([decimal(1, 10), json("null")]), True, b"\0" + key + bytes.fromhex("000008")),
        (Names([V[5], missing, json('"a"')]), False, bytes.fromhex("0007 01048103e90200 0000 00056100")),
        (Names([nested(257)]), False, "JDOC_TOO_DEEP"), (Names([DAMAGED]), False, INVALID_JSONB),
        (Names([missing, FLOAT]), True, UNSUPPORTED_NUMBER), (Placed(V[5], (0, 10, 11)), False, BAD_OFFSETS),
        (Placed(V[5], (10, 0)), True, BAD_OFFSETS), (Placed(V[5], (10,)), False, b""), (Placed(V[5], (0, 0)), False, bytes(2)),
    ])
    yield from table("equality_key", [
        (number(1), bytes.fromhex("048103e90200")), (decimal(1, 10), bytes.fromhex("048103e90200")),
        (V[5], bytes.fromhex("07 00000001 048103e90200")),
        (V[10], bytes.fromhex("06 00000002 056100 08 056200 07 00000001 08")),
        (V[12], bytes.fromhex("01 0000000000000005 1000000001")), (FLOAT, UNSUPPORTED_NUMBER),
    ])


LAX = [
    ("$[last, 0]", V[2], "[30,10]"), ("$[0, 0 to 1]", V[2], "[10,10,20]"), ("$[0 to 1]", EMPTY_ARRAY, "[]"),
    ("$[-1]", V[2], "[]"), ("1 == -1", V[5], "[false]"), ("", V[5], "[[1]]"),
    ("$.a\n", json(r'{"a":1,"a\n":2}'), "[2]"), ("$?(@ == 1)", V[3], '[[1,"a"]]'), ("$?(@ == 1)", V[4], "[]"),
    ("$[*]?(-@.a)", EMPTY_ARRAY, "[]"), ("$[*]?(-@.a)", V[5], PATH_FAILED), ("-$[*]", V[6], "[-1,2]"),
    ("-$[*]", V[7], "JDOC_OVERFLOW"), ("$ / 2", number(5), "JDOC_INEXACT"), ("$ / 0", number(5), "JDOC_ZERO_DIVISOR"),
    ("$ % 3", number(-7), "[-1]"), ("$[0] == 1 || $[1] == 1", V[3], "[null]"), ("$ != null", number(5), "[true]"),
    ("$.phones[*]?(@.number == 3720453)", V[11], '[{"number":3720453,"type":"home"}]'), ("$.**", V[9], "[[[1]],[1],1]"),
    ("$.**{1}", V[9], "[[1]]"), ('$[*]?(@ starts with "a")', V[3], '["a"]'), ("$.*", V[10], "[null,[null]]"),
    ("$[*]?(exists(@.k))", V[1], '[{"k":"v"}]'), ("$.b[*]?(@ == null)", V[10], "[null]"), ("$[*]", V[5], "[1]"),
    ("$[*]", V[2], "[10,20,30]"), ("$[*]", EMPTY_ARRAY, "[]"), ("$ - 1", number(0), "[-1]"), ("7 - 10", V[5], "[-3]"),
    ("$ * 4294967295", number(2**32), "[18446744069414584320]"), ("$ * $", number(2**32), "JDOC_OVERFLOW"),
    ("-$", number(-2**63), "[9223372036854775808]"), ("$ % 0", decimal(2, 1234), "JDOC_DECIMAL_OPERAND"),
    ("$[*] + 1", V[2], PATH_FAILED), ("-$[*]", json("[1,18446744073709551615]"), "JDOC_OVERFLOW"),
    ("+$", FLOAT, UNSUPPORTED_NUMBER), ("$[last + 2147483647]", V[2], "[]"),
    ("$[-2147483648 to 2147483647]", V[2], "[10,20,30]"), ("$[last - 2147483647 to last]", V[2], "[10,20,30]"),
    ("(" * 300 + "$ == 1" + ")" * 300, number(1), "[true]"), ("$.a", V[10], "[null]"), ("$.c", V[10], "[]"),
    ("$[*]", number(5), "[5]"), ("$[*].k", V[1], '["v"]'), ('$[*]?(@.k == "v")', V[1], '[{"k":"v"}]'),
    ("$.a == 1 || $.c == 1", V[10], "[null]"), ("exists($.c)", V[10], "[false]"), ("-$.c", V[10], "[]"),
    ("$[*] + $.c", V[2], PATH_FAILED), ("$[*]?(@.a + 1)", V[2], "[]"),
    ("$.k == \"a\\\\b\"", json(r'{"k":"a\\b"}'), "[true]"), ("$.a <> 1", json('{"a":2}'), "[true]"),
    ("$.\\u{d83d}\\u{de00}", json('{"\U0001f600":1}'), "[1]"), ("$.**{2 to LAST}", V[9], "[1]"),
]
STRICT = [
    ("$.a", V[10], "[null]"), ("$.c", V[10], STRICT_PATH), ("$[*]", number(5), STRICT_PATH), ("$[5]", V[2], "[]"),
    ("$[*].k", V[1], STRICT_PATH), ('$[*]?(@.k == "v")', V[1], STRICT_PATH), ("$.a == 1 || $.c == 1", V[10], STRICT_PATH),
    ("exists($.c)", V[10], STRICT_PATH), ("-$.c", V[10], STRICT_PATH), ("$.**", V[9], "[[[1]],[1],1]"),
    ("$[*] + $.c", V[2], STRICT_PATH), ("$[*]?(@.a + 1)", V[2], "[]"), ("$[*]?(-@.a)", V[5], PATH_FAILED),
]
NO_PATHS = ['$["a', '$[""]', "$[0, 1, 2 4]", "@ > 10", "$.prop..", "$?(@ == 10.5)", "-1 == 1", "$.**{300}", "$[1,]", "a<>1",
            "-7 % 3", r"$.\ud83d", '$."a', "$.a\\", r"$.a\u12", b"$.\xff"]


def paths():
    yield from selections(False, LAX)
    yield from selections(True, STRICT)
    yield from selections(False, [(path, V[5], INVALID_JSON_PATH) for path in NO_PATHS])
    whole = nested(300)
    yield Row("select_array", (whole, "$.**{0 to last}", False), OK, array_of([nested(depth) for depth in range(300, 0, -1)]))
    yield from table("match", [
        (V[5], "1 == -1", False, FALSE), (V[3], "$[0] == 1 || $[1] == 1", False, UNKNOWN), (V[2], "$[*] > 25", False, TRUE),
        (V[5], "$.a", False, UNKNOWN), (V[5], "7 - 10", False, UNKNOWN), (V[10], "exists($.c)", False, FALSE),
        (V[10], "exists($.c)", True, STRICT_PATH), (decimal(38, 2**127 - 1, 16), "$ > 1 && $ < 2", False, TRUE),
        (V[5], "@ > 10", False, INVALID_JSON_PATH), (V[7], "-$[*] == 1", False, INVALID_JSON_PATH),
    ])


def positions():
    """The byte at which the error is, in text that is not a path."""
    yield from table("keypath_error_position", [
        ("{a,1}", NONE), ("{}", NONE), ("", 0), (" {", 2), ("{a b}", 3), ("{a, }", 4), ("{1a}", 2), ("{a}b", 3), ('{"ab', 4),
        (r'{"a\q"}', 3), (b"{\xff}", 1),
    ])
    yield from table("path_error_position", [
        ("$.a", NONE), ("", NONE), ("$.", 1), ("$.a[", 3), ("$.a $", 4), ("-1 == 1", 3), ("@ > 10", 0), ("$.a == ", 7), ("(1 == 1", 7),
        ("$.a?(@.b == 1", 13), ("$.a?(@.b = 1)", 9), ("$ ?(@ > 1 && )", 13), ("exists($.a", 10), (b"$.\xff", 1),
    ])


# The bounds of paths on V[2] = [10,20,30], which has 22 bytes and two levels: 5 items, as many as its length has room for. The root is
# one item with 5 at and below it, [*] and .* list as many, .** twice as many, and each subscript all again.
BOUNDS = [
    ("$", 1), ("1", 1), ("$[*]", 6), ("$.*", 6), ("$.a.a", 3), ("$.**.**", 16), ("$.**{1}.a", 11), ("$[0,1]", 3), ("$[0 to last, 0]", 11),
    ("$[*]?(@ > 10)", 31), ("$[*]?(@ == $[0])", 81), ("$[*]?(@ > 1 && @ > 2)", 51), ("$[0] == 10", 14), ("-$[*]", 12),
    ("$" + ".**" * 70, 2**64 - 1),
]


def limits():
    """Paths with a limit, and their bounds."""
    exceeded = "JDOC_LIMIT_EXCEEDED"
    yield from table("by_most_items", [(V[2], path, bound) for path, bound in BOUNDS])
    yield from table("by_most_items", [(DAMAGED, "$", INVALID_JSONB), (FLOAT, "$", UNSUPPORTED_NUMBER), (V[2], "$.", INVALID_JSON_PATH)])
    for call in ("select_value", "select_first", "select_array", "items", "find_first", "exists"):
        call = "by_limit_" + call
        yield from table(call, [(V[2], path, bound - 1, exceeded) for path, bound in BOUNDS])
        yield from table(call, [(DAMAGED, "$", 9, INVALID_JSONB), (FLOAT, "$", 9, UNSUPPORTED_NUMBER), (V[2], "$.", 9, INVALID_JSON_PATH)])
    for call in ("select_value", "select_first", "items", "find_first"):
        yield from table("by_limit_" + call, [(V[2], "$[0]", 2, number(10)), (V[2], "$[0]", 1, exceeded), (V[2], "$[9]", 2, NONE)])
    yield from table("by_limit_select_array", [(V[2], "$[*]", 6, V[2]), (V[2], "$[*]", 5, exceeded), (V[2], "$.a", 2, EMPTY_ARRAY)])
    yield from table("by_limit_exists", [(V[2], "$[*]", 6, TRUE), (V[2], "$.a", 2, FALSE), (V[2], "$[*] > 1", 0, exceeded)])
    yield from table("by_limit_match", [
        (V[2], "$[0] == 10", 14, TRUE), (V[2], "$[0] == 10", 13, exceeded), (V[2], "$[*]", 0, UNKNOWN), (V[2], "$", 2**64 - 1, UNKNOWN),
        (DAMAGED, "$ == 1", 9, INVALID_JSONB), (V[2], "$.", 9, INVALID_JSON_PATH),
    ])


def array_of(parts):
    """The array of documents that are arrays."""
    header = (0x80000000 + len(parts)).to_bytes(4, "big")
    return header + b"".join((0x50000000 + len(it)).to_bytes(4, "big") for it in parts) + b"".join(parts)


def making():
    yield Row("from_null", (), OK, json("null"))
    yield from table("from_bool", [(True, json("true")), (False, json("false"))])
    yield from table("from_i64", [
        (-100, bytes.fromhex("2000000020000002409c")), (0, bytes.fromhex("200000002000000100")), (-2**63, number(-2**63)),
        (5, bytes.fromhex("20000000200000024005")), (2**63 - 1, bytes.fromhex("2000000020000009407fffffffffffffff")),
    ])
    yield from table("from_u64", [(0, number(0)), (255, number(255)), (2**64 - 1, number(2**64 - 1))])
    yield from table("from_decimal", [
        (0, 1234, 2, bytes.fromhex("200000002000000a7000000000000004d202")), (0, 0, 7, number(0)), (-1, 2**64 - 5, 3, decimal(3, -5)),
        (2**63 - 1, 2**64 - 1, 38, decimal(38, 2**127 - 1, 16)), (-1, 2**63, 0, decimal(0, -2**63)),
        (-2**63, 0, 255, decimal(255, -2**127, 16)), (0, 2**63, 0, decimal(0, 2**63, 16)),
    ])
    yield from table("from_str", [("a", json('"a"')), ("", json('""')), ("é", json('"é"')), (b"\xff", NOT_UTF8)])
    yield from table("array_from_column", [
        (Names(), EMPTY_ARRAY), (Names([number(1), json('"a"')]), V[3]), (Names([V[5]]), V[9]), (Names([DAMAGED]), INVALID_JSONB),
        (Placed(V[5], (0, 10, 11)), BAD_OFFSETS), (Placed(V[5], (10, 0)), BAD_OFFSETS), (Placed(V[5], (10,)), EMPTY_ARRAY),
        (Placed(V[5], (0, 10, 10)), INVALID_JSONB), (Placed(b"\0" + V[5], (1, 11)), V[9]),
    ])
    one, text = number(1), json('"adf"')
    yield from table("object_from_columns", [
        (Names(), Names(), json("{}")), (Names(["asd"]), Names([text]), V[15]),
        (Names(["b", "a"]), Names([json("[null]"), json("null")]), V[10]), (Names(["b", ""]), Names([one, one]), json('{"":1,"b":1}')),
        (Names(["a", "b", "a"]), Names([one, one, one]), "JDOC_OBJECT_DUPLICATE_KEY"),
        (Names(["a", "a"]), Names([one, DAMAGED]), INVALID_JSONB), (Names(["a"]), Names([FLOAT]), UNSUPPORTED_NUMBER),
        (Names(["a"]), Names(), BAD_OFFSETS), (Names(), Names([one]), BAD_OFFSETS), (Names(["a"]), Placed(one, (0, 11)), BAD_OFFSETS),
        (Names([b"\xff"]), Placed(one, (0, 11)), BAD_OFFSETS), (Names([b"\xff"]), Names([one]), NOT_UTF8),
        (Names(["a"]), Placed(V[5], (10, 0)), BAD_OFFSETS),
    ])


def events():
    """The document of events, which are letters (bindings/c/tests/handles.h)."""
    order = "JDOC_OUT_OF_ORDER"
    whole = [
        ("n", json("null")), ("t", json("true")), ("f", json("false")), ("i", number(-100)), ("u", number(1)), ("m", decimal(2, 1234)),
        ("s", json('"adf"')), ("d", V[1]), ("[.", EMPTY_ARRAY), ("{.", json("{}")), ("{ks.", V[15]), ("{b[n.an.", V[10]), ("[[u..", V[9]),
        ("[d.", array_of([V[1]])), ("{at.", bytes.fromhex("40000001 10000001 40000000 61")), ("[" * 300 + "." * 300, nested(300)),
    ]
    for call in ("by_events", "by_events_that_fit"):
        yield from table(call, [(V[1], *row) for row in whole])
        yield from table(call, [(V[1], it, order) for it in ("", "[", "{a", "{au", "[[.")])
    lists = [(V[1], it, want) for it, want in whole if "d" not in it] + [(V[1], it, order) for it in ("", "[", "{a", "[[.", ".", "nn", "a", "{n", "{aa", "{a.", "[a")]
    for last in (False, True):
        yield from table("by_event_list", [(row[0], row[1], last, row[2]) for row in lists])
        yield from table("by_event_list", [(V[1], "[x.", last, NOT_UTF8), (V[1], "{yn.", last, NOT_UTF8), (V[1], "{bsai.", last, json('{"a":-100,"b":"adf"}'))])
    yield from table("by_event_list", [
        (V[1], "{auan.", False, "JDOC_OBJECT_DUPLICATE_KEY"), (V[1], "{auan.", True, json('{"a":null}')), (V[1], "{bnaua[n.bs.", True, json('{"a":[null],"b":"adf"}')),
    ])
    yield from table("by_events", [(V[1], it, order) for it in (".", "n.", "nn", "n[", "n{", "[..", "a", "[a", "{n", "{[", "{aa", "{a.", "{aun", "da")])
    yield from table("by_events", [
        (V[1], "{aua", "JDOC_OBJECT_DUPLICATE_KEY"), (V[1], "[x", NOT_UTF8), (V[1], "{y", NOT_UTF8), (DAMAGED, "[d", INVALID_JSONB),
        (FLOAT, "d", UNSUPPORTED_NUMBER),
    ])
    yield from table("by_events_that_fit", [
        (V[1], "{auabs.", json('{"a":1,"b":"adf"}')), (V[1], "{n[au..", json('{"a":1}')), (V[1], "{ab.u.", json('{"a":1}')),
        (V[1], ".[xu.nk", json("[1]")), (V[1], "{yad.", json('{"a":[false,10,{"k":"v"}]}')), (DAMAGED, "d[d.", EMPTY_ARRAY),
    ])


def reading():
    yield from table("span_of_type", [
        (b"", 0, json("null")), (b"adf", 1, json('"adf"')), (number(1)[8:], 2, number(1)), (b"", 3, json("false")), (b"", 4, json("true")), (V[1], 5, V[1]),
        (V[12][8:], 6, V[12]), (b"adf", 7, INVALID_JSONB), (b"adf", 17, INVALID_JSONB), (b"", 255, INVALID_JSONB),
    ])
    yield from table("span_from", [(b"adf", 0, json('"adf"')), (b"", 0, json('""'))] + [(it, at, INVALID_JSONB) for it in (b"adf", b"") for at in (1, 2**63 - 1)])
    yield from table("span_from", [(b"adf", -1, INVALID_JSONB)])
    yield from table("len", [(V[1], 3), (V[10], 2), (EMPTY_ARRAY, 0), (number(1), NONE)])
    yield from table("pair_key", [(V[10], 0, b"a"), (V[10], 1, b"b"), (V[10], 2, NONE), (V[5], 0, NONE), (json('{"":1}'), 0, b"")])
    yield from table("pair_value", [(V[10], 0, json("null")), (V[10], 1, json("[null]")), (V[10], 2, NONE), (V[5], 0, NONE)])


def leaves():
    """Key paths and documents as columns, each with its positions in the machine's order."""
    rows = [
        (V[1], ["{0}", "{1}", "{2,k}"], ["2000000030000000", "2000000020000002500a", "200000001000000176"]),
        (V[10], ["{a}", "{b,0}"], ["2000000000000000"] * 2),
        (bytes.fromhex("40000001 10000003 20000002 612062 5001"), ['{"a b"}'], ["20000000200000025001"]),
        (json(r'{"\"\\":1}'), [r'{"\"\\"}'], ["20000000200000025001"]), (json('{"":{"1":[[]]}}'), ['{"","1",0}'], ["80000000"]),
        (json("[{}]"), ["{0}"], ["40000000"]), (json("[[[]],false]"), ["{0,0}", "{1}"], ["80000000", "2000000030000000"]),
        (V[8], ["{0}", "{1}", "{2}", "{3}"],
         ["20000000200000025001"] * 2 + ["20000000200000025002", "200000002000000a70000000000000000a01"]),
        (V[14], ["{number}", "{type}"], ["200000002000000550 0038c505", "2000000010000004686f6d65"]),
        (bytes.fromhex("80000001 60000005 1000000001"), ["{0}"], ["20000000 60000005 1000000001"]),
        (bytes.fromhex("80000001 60000002 00ff"), ["{0}"], ["20000000 60000002 00ff"]),
        (number(5), [], []), (EMPTY_ARRAY, [], []), (json("{}"), [], []), (V[12], [], []),
        (nested(60), ["{" + ",".join(["0"] * 59) + "}"], ["80000000"]),
    ]
    for document, paths, parts in rows:
        columns = [[path.encode() for path in paths], [bytes.fromhex(part) for part in parts]]
        for call, column in zip(("leaf_paths", "leaf_documents"), columns):
            yield Row(call, (document,), OK, b"".join(column))
        for call, column in zip(("leaf_path_positions", "leaf_document_positions"), columns):
            ends = [sum(map(len, column[:count])) for count in range(len(column) + 1)]
            yield Row(call, (document,), OK, struct.pack(f"={len(ends)}Q", *ends))
    for call in ("leaf_paths", "leaf_path_positions", "leaf_documents", "leaf_document_positions"):
        yield from table(call, [(FLOAT, UNSUPPORTED_NUMBER), (DAMAGED, INVALID_JSONB), (b"", INVALID_JSONB)])


# The calls that others repeat, on a prepared path or by the span of what they copy: each row is one of those too
# (bindings/c/tests/handles.h).
PREPARED = {
    "select_value": ["by_path_select_value"], "select_first": ["by_path_select_first", "by_path_read_again", "by_first_span", "by_path_first_span"],
    "select_array": ["by_path_select_array", "by_items", "by_item_spans"], "exists": ["by_path_exists"], "match": ["by_path_match"],
    "get_by_keypath": ["by_keypath_get", "by_span", "by_keypath_span"], "delete_by_keypath": ["by_keypath_delete"],
    "get_by_index": ["span_by_index", "cursor_element"], "get_by_name": ["span_by_name"], "as_str": ["span_str"],
    "len": ["cursor_len"], "pair_key": ["cursor_key"], "pair_value": ["cursor_value"],
}


def prepared(rows):
    """The rows, and after each that runs on a prepared path too the rows of it."""
    for row in rows:
        yield row
        for call in PREPARED.get(row.call, []):
            yield Row(call, row.arguments, row.status, row.answer)
    yield from table("first_in_place", [
        (V[1], "$[*].k", False, json('"v"')), (V[1], "$[9]", False, NONE), (V[2], "$[1] + 1", False, "JDOC_COMPUTED"),
        (V[2], "$[*] > 25", False, "JDOC_COMPUTED"), (V[2], "-$[9]", False, NONE), (V[2], "-$[0]", False, "JDOC_COMPUTED"),
    ])
    yield from table("by_wrong_kind", [(V[10], "$.a", False, "JDOC_NO_PATH"), (V[10], "$.", False, INVALID_JSON_PATH)])


def all_rows():
    parts = (places, edits, places_of_names, sets, scalars, keys, paths, positions, limits, making, events, reading, leaves)
    yield from prepared(row for part in parts for row in part())


if __name__ == "__main__":
    for row in all_rows():
        print(row.line())
