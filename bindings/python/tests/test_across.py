"""A value is decoded and built again by calls of the C library alone: without JSON text, and without the format."""

import ctypes
import os
import random
import unittest
from decimal import Decimal
from itertools import accumulate

from jsonb_paths import dumps
from test_documents import random_value

LIBRARY = os.environ.get("JDOC_LIBRARY", "")
SIZE, BYTE, WORD = ctypes.c_size_t, ctypes.c_uint8, ctypes.c_uint64


@unittest.skipUnless(os.path.exists(LIBRARY), "JDOC_LIBRARY does not name libjdoc.so")
class AcrossByCalls(unittest.TestCase):
    def setUp(self):
        self.library = ctypes.CDLL(LIBRARY)

    def test_every_json_value_crosses_both_ways(self):
        source = random.Random(5)
        for value in [random_value(source) for _ in range(300)] + [Decimal(2**127 - 1), Decimal(-(2**127)), -(2**63), 2**64 - 1]:
            document = dumps(value)
            self.assertEqual(self.apart(document), value)
            self.assertEqual(self.made(self.apart(document)), document)

    def number(self, name, document, kind):
        """What a call writes to where a pointer points, or None."""
        found = kind()
        status = getattr(self.library, f"jdoc_{name}")(document, SIZE(len(document)), ctypes.byref(found))
        self.assertIn(status, (0, 1))
        return None if status else found.value

    def bytes(self, name, *words):
        """What a call writes into a buffer."""
        out, length = ctypes.create_string_buffer(1 << 16), SIZE()
        self.assertEqual(getattr(self.library, f"jdoc_{name}")(*words, out, SIZE(len(out)), ctypes.byref(length)), 0)
        return out.raw[: length.value]

    def apart(self, document):
        kind = self.number("type", document, BYTE)
        count = self.number("len", document, SIZE)
        if kind == 10:
            return [self.apart(self.bytes("get_by_index", document, SIZE(len(document)), SIZE(it))) for it in range(count)]
        if kind == 11:
            return {key: self.apart(part) for key, part in (self.pair(document, it) for it in range(count))}
        if kind == 1:
            return bool(self.number("as_bool", document, BYTE))
        if kind == 2:
            signed = self.number("as_i64", document, ctypes.c_int64)
            return self.number("as_u64", document, WORD) if signed is None else signed
        return {0: lambda _: None, 3: self.decimal, 4: lambda it: self.bytes("as_str", it, SIZE(len(it))).decode()}[kind](document)

    def decimal(self, document):
        high, low, scale = ctypes.c_int64(), WORD(), BYTE()
        status = self.library.jdoc_as_decimal(document, SIZE(len(document)), ctypes.byref(high), ctypes.byref(low), ctypes.byref(scale))
        self.assertEqual(status, 0)
        return Decimal(f"{(high.value << 64) + low.value}E-{scale.value}")

    def pair(self, document, index):
        (key, key_len), (value, value_len) = [(ctypes.create_string_buffer(len(document) + 8), SIZE()) for _ in range(2)]
        status = self.library.jdoc_pair(document, SIZE(len(document)), SIZE(index), key, SIZE(len(key)), ctypes.byref(key_len), value,
                                        SIZE(len(value)), ctypes.byref(value_len))
        self.assertEqual(status, 0)
        return key.raw[: key_len.value].decode(), value.raw[: value_len.value]

    def column(self, rows):
        offsets = [0, *accumulate(map(len, rows))]
        data = b"".join(rows)
        return data, SIZE(len(data)), (WORD * len(offsets))(*offsets), SIZE(len(offsets))

    def made(self, value):
        if value is None:
            return self.bytes("from_null")
        if isinstance(value, bool):
            return self.bytes("from_bool", ctypes.c_bool(value))
        if isinstance(value, int):
            return self.bytes("from_i64", ctypes.c_int64(value)) if value < 0 else self.bytes("from_u64", WORD(value))
        if isinstance(value, Decimal):
            sign, digits, exponent = value.as_tuple()
            whole = int("".join(map(str, digits))) * (-1 if sign else 1)
            return self.bytes("from_decimal", ctypes.c_int64(whole >> 64), WORD(whole % 2**64), BYTE(-exponent))
        if isinstance(value, str):
            return self.bytes("from_str", value.encode(), SIZE(len(value.encode())))
        if isinstance(value, list):
            return self.bytes("array_from_column", *self.column(list(map(self.made, value))))
        names = self.column([it.encode() for it in value])
        return self.bytes("object_from_columns", *names, *self.column(list(map(self.made, value.values()))))


if __name__ == "__main__":
    unittest.main()
