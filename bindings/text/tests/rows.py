#!/usr/bin/env python3
"""Prints the rows of tests/text.c. What each must give comes from tools/documents.py, which is written from docs/FORMAT.md
alone, from Python's json, and from the tables below; none of it from the library.

    python3 rows.py [RANDOM]     RANDOM documents more, of Python's random values (2,000)
"""

import json
import os
import random
import re
import struct
import sys
from decimal import Decimal

sys.path.append(os.path.join(os.path.dirname(os.path.abspath(__file__)), "..", "..", "..", "tools"))
import documents as model

ROUND, KEEP_LAST = 1, 2
NOT_UTF8, UNSUPPORTED, DUPLICATE, INVALID = 4, 17, 23, 64
LARGEST = 2**127 - 1

# What is not JSON, like the cases of JSONTestSuite, with the byte that shows it.
INVALID_TEXTS = [
    ("", 0), (" ", 1), ("[", 1), ("]", 0), ("{", 1), ("}", 0), ("[1,", 3), ("[1", 2), ("[,1]", 1), ("[1,]", 3), ("[1,,2]", 3), ("[1 2]", 3),
    ("[1}", 2), ('{"a":1]', 6), ("[1:2]", 2), ('{"a"}', 4), ('{"a" 1}', 5), ('{"a":}', 5), ('{"a":1,}', 7), ('{"a":1,,"b":2}', 7),
    ("{1:2}", 1), ("{a:1}", 1), ("{'a':1}", 1), ('{"a":1 "b":2}', 7), ('{"a":"b":"c"}', 8), ("{,}", 1), ("[]]", 2), ("{}}", 2), ("1 2", 2),
    ("[] []", 3), ("nul", 0), ("nulll", 4), ("True", 0), ("FALSE", 0), ("NaN", 0), ("Infinity", 0), ("-Infinity", 1), ("[-NaN]", 2),
    ("-", 1), ("+1", 0), (".5", 0), ("-.5", 1), ("5.", 2), ("5.e1", 2), ("1e", 2), ("1e+", 3), ("1E-", 3), ("01", 1), ("-01", 2), ("1.2.3", 3),
    ("0x1", 1), ("1_000", 1), ("1,000", 1), ("--1", 1), ("1-", 1), ("[1e]", 3), ("[0e+]", 4), ("[2.e3]", 3), ("[1.]", 3),
    ('"', 1), ('"a', 2), ('"\\', 2), ('"\\"', 3), ("'a'", 0), ('"\\a"', 1), ('"\\x41"', 1), ('"\\0"', 1), ('"\\u"', 1), ('"\\u12"', 1),
    ('"\\u12G4"', 1), ('"\\u 123"', 1), ('"\\U0041"', 1), ('"a\nb"', 2), ('"a\tb"', 2), ('"\x00"', 1), ('"\x1f"', 1), ('"\\\n"', 1), ("\x00", 0),
    ("[1]\x00", 3), ("\ufeff1", 0), ("\u00a01", 0), ("\u20281", 0), ("/* */1", 0), ("1//", 1), ("[1#]", 2), ("\x0b1", 0), ("\x0c1", 0), ('{"a":1}x', 7),
    ('["a",\n"b",\n"c\n"]', 13), ("(1)", 0), ("<null>", 0), ("[<null>]", 1), ('{[1:2]}', 1), ("* ", 0), ('"a" "b"', 4), ("\\u0041", 0),
]
# Escapes that stand for half a surrogate pair, with the byte of the escape.
HALVES = [('"\\ud800"', 1), ('"a\\uDBFF"', 2), ('"\\udc00"', 1), ('"\\udfff\\ud800"', 1), ('"\\ud800\\ud800"', 1), ('"\\ud800\\u0041"', 1),
          ('"\\ud800\\n"', 1), ('"\\ud800x"', 1), ('"\\uD83D\\uDE00\\uD83D"', 13), ('{"\\ud800":1}', 2), ('"\\ud83d\\"', None)]
# Bytes that are not UTF-8 (RFC 3629), with the first wrong one.
NOT_TEXTS = [(b'"\xff"', 1), (b'"a\x80"', 2), (b'"\xc0\xaf"', 1), (b'"\xc1\xbf"', 1), (b'"\xe0\x80\xaf"', 1), (b'"\xed\xa0\x80"', 1), (b'"\xed\xbf\xbf"', 1),
             (b'"\xf0\x8f\xbf\xbf"', 1), (b'"\xf4\x90\x80\x80"', 1), (b'"\xf5\x80\x80\x80"', 1), (b'"\xc3"', 1), (b'"\xe2\x82"', 1), (b'"\xf0\x9f\x98"', 1),
             (b'{"\xff":1}', 2), (b'["\xc3\xa9","\xc3("]', 7)]
VALID_TEXTS = [
    "null", " true ", "\t\r\n false\n", '""', '"\\u0000"', '"\\u0020"', '"\\"\\\\\\/\\b\\f\\n\\r\\t"', '"\\u00e9\\u20ac\\uD83D\\uDE00"', '"\\uFFFF\\ufffe"',
    '"\x7f\u0080\u07ff\u0800\uffff\U00010000\U0010ffff"', '"\\u002F/"', '"\\\\u0041"', '"\\"', "[]", "{}", "[[],{}]", "[ ]", "{ }", "[\n1 ,\t2 ]", '{"a" : 1 , "b":2}',
    '{"":0}', '{"b":1,"a":2}', '{"a":{"b":[{"c":null}]}}', '{"aa":1,"a":2,"b":3,"ab":4}', '{"\\u0061":1}', '{"\u00e9":1,"e":2,"z":3,"\U0001f600":4,"\uffff":5}',
    '["\\u005b","]","{\\"a\\":1}"]', '"' + "x" * 7 + '\\n' + "y" * 8 + '\\u00e9' + "z" * 9 + '"', '["a","b","c"]', "[1,[2,[3,[4,[5]]]]]",
    '{"%s":1}' % ("k" * 300), "[%s]" % ",".join(["0"] * 300),
    '{"a":1,"a\\u0000":2,"":3,"\\u0000":4,"\\u0000\\u0000":5}', '{"abcdefgh":1,"abcdefg":2,"abcdefghi":3,"abcdefgh\\u0000":4,"abcdefg\\u0000":5}',
    "{%s}" % ",".join(f'"abcdefgh{it * 37 % 100}":{it}' for it in range(100)), "{%s}" % ",".join(f'"{chr(255 - it)}":{it}' for it in range(13)), "{%s}" % ",".join(f'"{it * 37 % 100}":{it}' for it in range(100)), '"' + "\\u0001" * 20 + '"',
]
# A string with an escape or a quotation mark at each place of a block of sixteen bytes, alone and before an error.
for length in range(36):
    VALID_TEXTS += ['"%s"' % ("x" * length), '"%s\\n%s"' % ("x" * length, "y" * (35 - length)), '{"%s\\\\":"%s\\u00e9"}' % ("k" * length, "v" * length)]
    INVALID_TEXTS += [('"%s' % ("x" * length), length + 1), ('["%s\x1f"]' % ("x" * length), length + 2), ('"%s\\x"' % ("x" * length), length + 1)]
# The payload of a number such as 0.5 is longer than its text: a string after some of them has to have room.
VALID_TEXTS += ['[%s,"%s"]' % (",".join(["0.5"] * count), "z" * 200) for count in range(30, 110, 4)]
NUMBERS = """0 -0 1 -1 9 10 127 128 255 256 65535 65536 4294967295 4294967296 -128 -129 -32768 -32769 -2147483648 -2147483649
    9223372036854775807 9223372036854775808 18446744073709551615 18446744073709551616 -9223372036854775808 -9223372036854775809
    170141183460469231731687303715884105727 170141183460469231731687303715884105728 -170141183460469231731687303715884105728
    -170141183460469231731687303715884105729 99999999999999999999999999999999999999 999999999999999999 -999999999999999999
    1000000000000000000 -1000000000000000000 0.00000000000000001 0.000000000000000001 -0.00000000000000001 1234567890.12345678 12345678901.12345678
    -1234567890.12345678 -12345678901.12345678 0.10 -0.010 0.00 100000000000000000000000000000000000000
    1000000000000000000000000000000000000000 0.0 -0.0 0.5 1.0 1.50 12.34 -12.34 0.1234567890123456789 0.12345678901234567890123456789012345678
    0.123456789012345678901234567890123456789 1.7014118346046923173168730371588410572 92233720368547758.07 -92233720368547758.08 92233720368547758.08
    1e0 1e1 1E2 1e+2 1e-2 12e3 1.5e1 1.5e-1 1.50e1 1e37 1e38 2e38 1e39 -1e38 1e-255 1e-256 10e-256 100e-257 0e400 0e-400 0.000e99 -0e999999999999999999999
    1e400 1e-400 1e99999 1e-99999 1e999999999999999999999999999999 1e-999999999999999999999999999999 1e00000000000000000000000000000000000001
    1e-00000000000000000000000000000000000001 0e999999999999999999999999999999 1e2147483647 1e2147483648 1e-2147483648 1e9223372036854775807
    1e9223372036854775808 1e-9223372036854775809 17014118346046923173168730371588410572.7 17014118346046923173168730371588410572.8
    17014118346046923173168730371588410572.75 17014118346046923173168730371588410572.85 -17014118346046923173168730371588410572.85
    170141183460469231731687303715884105727.5 170141183460469231731687303715884105727.4 3.14159265358979323846264338327950288419716939937510 2.5e-256 2.4e-255
    0.00000000000000000000000000000000000000005 5e-256 4e-256 49e-257 51e-257 123456789e-260 1.7976931348623157e308 5e-324 2.2250738585072014e-308""".split()
NUMBERS += ["1" + "0" * 60 + "e-30", "1" + "0" * 400 + "e-400", "1" + "0" * 400, "1" + "0" * 60 + "e-10", "1." + "0" * 300, "1." + "0" * 300 + "e5", "0." + "0" * 254 + "1",
            "0." + "0" * 255 + "1", "0." + "0" * 300, "12" + "0" * 37, "12" + "0" * 38, "-17" + "0" * 37 + "e-255", "9" * 38, "9" * 39, "9" * 38 + ".9", "1" * 4000,
            "0." + "1" * 4000, "9" * 37 + "." + "9" * 300, "0." + "9" * 300, "1" + "0" * 37 + "5e-1", "1" + "0" * 38 + "50e-2"]


def parts(text):
    """A number as a whole one over ten to the scale, and whether it is written without a point and an exponent."""
    sign, whole, fraction, exponent = re.fullmatch(r"(-?)(\d+)(?:\.(\d+))?(?:[eE]([+-]?\d+))?", text).groups()
    value = int(whole + (fraction or "")) * (-1 if sign else 1)
    return value, len(fraction or "") - int(exponent or 0), fraction is None and exponent is None


def number(text, rounded=False):
    """The integer and the scale that are stored, and whether the number is an integer of the format; or None."""
    value, scale, whole = parts(text)
    limit = 2**127 if value < 0 else LARGEST
    size = abs(value)
    if size == 0:
        return 0, 0, True
    if scale < 0:
        size, scale = size * 10 ** min(-scale, 40), 0
    if scale > 10000 and rounded:
        return 0, 0, True
    for cut in range(scale + 1) if scale < 10000 else ():
        if size // 10**cut <= limit and scale - cut <= 255:
            kept = size // 10**cut
            if kept * 10**cut != size:
                if not rounded:
                    return None
                kept += 2 * (size - kept * 10**cut) >= 10**cut
                if kept > limit:
                    continue
            if kept == 0:
                return 0, 0, True
            value = kept if value > 0 else -kept
            return value, scale - cut, whole and cut == 0 and -(2**63) <= value < 2**64
    return None


def payload(value, scale, integer):
    if integer:
        return model.integer(value)
    width = 8 if -(2**63) <= value < 2**63 else 16
    return b"\x70" + value.to_bytes(width, "big", signed=True) + bytes([scale])


def plain(value, scale):
    """The text of a number without an exponent."""
    digits = str(abs(value)).rjust(scale + 1, "0")
    text = digits[: len(digits) - scale] + ("." + digits[len(digits) - scale :] if scale else "")
    return ("-" if value < 0 else "") + text


def quoted(text):
    return json.dumps(text, ensure_ascii=False)


def row(options, text, *rest):
    text = text if isinstance(text, bytes) else text.encode()
    print(options, text.hex(), *rest, sep="\t")


def error(options, text, status, at):
    row(options, text, f"error {status} {at}")


def document(options, text, value):
    row(options, text, model.encode(value).hex(), model.written(value).encode().hex())


def numbers():
    for text in NUMBERS:
        for rounded in (False, True):
            found = number(text, rounded)
            if found is None:
                error(rounded * ROUND, f"[0, {text}]", UNSUPPORTED, 4)
                continue
            bytes_ = payload(*found)
            made = struct.pack(">III", 0x80000002, 0x20000001, 0x20000000 + len(bytes_)) + b"\0" + bytes_
            row(rounded * ROUND, f"[0, {text}]", made.hex(), f"[0,{plain(*found[:2])}]".encode().hex())


def keys():
    for text, at, last in [
        ('{"a":1,"a":2}', 7, {"a": 2}), ('{"b":1,"a":[],"b":{"c":2}}', 14, {"a": [], "b": {"c": 2}}), ('[{"x":{"a":1,"\\u0061":2}}]', 13, [{"x": {"a": 2}}]),
        ('{"":1,"":2,"":3}', 6, {"": 3}), ('{"a":{"k":[1,2]},"b":1,"a":{"k":[3]},"a":null}', 23, {"a": None, "b": 1}),
        ("{%s}" % ",".join(f'"{it % 20}":{it}' for it in range(40)), len("{" + ",".join(f'"{it % 20}":{it}' for it in range(20))) + 1,
         {str(it % 20): it for it in range(40)}),
    ]:
        error(0, text, DUPLICATE, at)
        document(KEEP_LAST, text, last)


TEXTS = ["", "a", "b", "key", "é", "\U0001f600", 'q"uote', "back\\slash", "line\nend", "\x00\x1f", "long " * 20, "\u2028"]


def random_value(source, depth):
    shape = source.randrange(8 if depth else 6)
    if shape == 0:
        return source.choice([None, True, False])
    if shape in (1, 2):
        return source.randrange(-(2**source.randrange(1, 64)), 2 ** source.randrange(1, 65))
    if shape == 3:
        return Decimal(source.randrange(-(10 ** source.randrange(1, 30)), 10**20)).scaleb(-source.randrange(1, 9))
    if shape in (4, 5):
        return source.choice(TEXTS)
    items = [random_value(source, depth - 1) for _ in range(source.randrange(6))]
    return items if shape == 6 else dict(zip(source.sample(TEXTS, 6), items))


class Exact(json.JSONEncoder):
    """Python's encoder, which keeps the digits of decimals."""

    def default(self, value):
        return f"<{value:f}>"


def random_text(source, value):
    text = json.dumps(value, cls=Exact, ensure_ascii=source.random() < 0.5, indent=source.choice([None, 1]),
                      separators=source.choice([(",", ":"), (" , ", " : ")]))
    return re.sub(r'"<([^">]*)>"', r"\1", text)


def main():
    source = random.Random(1)
    for text, at in INVALID_TEXTS:
        error(0, text, INVALID, at)
    for text, at in HALVES:
        error(0, text, INVALID if at is None else NOT_UTF8, len(text) if at is None else at)
    for text, at in NOT_TEXTS:
        error(0, text, NOT_UTF8, at)
    for text in VALID_TEXTS:
        if text != '"\\"':
            document(0, text, json.loads(text, parse_float=Decimal))
    numbers()
    keys()
    for _ in range(int(sys.argv[1]) if len(sys.argv) > 1 else 2000):
        value = random_value(source, 4)
        text = random_text(source, value)
        assert json.loads(text, parse_float=Decimal) == value
        document(0, text, value)


if __name__ == "__main__":
    main()
