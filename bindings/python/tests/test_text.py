"""JSON text and Python values: what is exact, what is an error, and where."""

import time
import unittest
from decimal import Decimal

import jsonb_paths
from jsonb_paths import dumps, errors, from_json, loads, to_json


class Numbers(unittest.TestCase):
    def test_what_is_kept(self):
        for text, kept in [
            ("1.50", "1.50"), ("-0", "0"), ("-0.0", "0"), ("1e2", "100"), ("1e-255", "0." + "0" * 254 + "1"), (str(2**64), str(2**64)),
            (str(2**127 - 1), str(2**127 - 1)), (str(-(2**127)), str(-(2**127))), ("0e400", "0"), ("0e" + "9" * 30, "0"), ("1" + "0" * 60 + "e-60", "1." + "0" * 38),
        ]:
            self.assertEqual(to_json(from_json(text)), kept)

    def test_a_number_that_is_not_exact_is_an_error_with_its_place(self):
        for text in ["1e39", "1e-256", str(2**127), str(-(2**127) - 1), "1e400", "1" * 5000, "1e" + "9" * 30, "1e-" + "9" * 30, "0." + "1" * 40]:
            with self.assertRaises(errors.UnsupportedNumber) as caught:
                from_json("[1, " + text + "]")
            self.assertEqual(caught.exception.at, 4)
            self.assertIn(text[:20], str(caught.exception))

    def test_it_may_be_rounded(self):
        for text, kept in [("1e-256", "0"), ("5e-256", "0." + "0" * 254 + "1"), ("0." + "1" * 40, "0." + "1" * 39), ("0." + "6" * 40, "0." + "6" * 37 + "7")]:
            self.assertEqual(to_json(from_json(text, floats="decimal")), kept)
        for text in ("1e39", "1e400"):
            with self.assertRaises(errors.UnsupportedNumber):
                from_json(text, floats="decimal")

    def test_zero_that_is_stored_as_a_decimal(self):
        for payload in ("7000000000000000000000", "70" + "00" * 16 + "05", "4000", "500000"):
            number = bytes.fromhex(payload)
            document = bytes.fromhex("20000000") + (0x20000000 + len(number)).to_bytes(4, "big") + number
            if number[0] == 0x70 and len(number) not in (10, 18):
                continue
            jsonb_paths.check(document)
            self.assertEqual((loads(document), to_json(document)), (0, "0"))


class Texts(unittest.TestCase):
    def test_errors_have_their_place(self):
        for text, kind, at in [
            ('{"a":1,"b":2,"a":3}', errors.ObjectDuplicateKey, 13), ("[1,2", errors.InvalidJson, 4), ("[NaN]", errors.InvalidJson, 1),
            ('["\\ud800"]', errors.NotUtf8, 2), ('"\\udc00"', errors.NotUtf8, 1), (b'"a\xff"', errors.NotUtf8, 2), ("", errors.InvalidJson, 0),
        ]:
            with self.assertRaises(kind) as caught:
                from_json(text)
            self.assertEqual(caught.exception.at, at)
        with self.assertRaises(errors.NotUtf8):
            from_json('"\ud800"')

    def test_the_last_of_two_keys_may_be_kept(self):
        self.assertEqual(loads(from_json('{"a":1,"b":2,"a":[3]}', duplicates="last")), {"a": [3], "b": 2})

    def test_words_that_are_not_known(self):
        for call in (lambda: from_json("1", floats="round"), lambda: from_json("1", strict=True), lambda: dumps(1, duplicates=1), lambda: from_json(1)):
            with self.assertRaises(TypeError):
                call()

    def test_depth_takes_no_stack(self):
        text = "[" * 1_000_000 + "]" * 1_000_000
        document = from_json(text)
        self.assertEqual(to_json(document), text)
        value, depth = loads(document), 0
        while value:
            value, depth = value[0], depth + 1
        self.assertEqual(depth, 999_999)

    def test_many_keys_take_linear_time(self):
        def seconds(count):
            text = "{%s,\"k7\":2}" % ",".join(f'"k{it}":1' for it in range(count))
            start = time.process_time()
            with self.assertRaises(errors.ObjectDuplicateKey):
                from_json(text)
            return time.process_time() - start

        few = seconds(20_001)
        self.assertLess(seconds(160_008), 24 * few + 0.1)

    def test_an_extension_has_no_text(self):
        date = bytes.fromhex("20000000600000051000000001")
        for call in (to_json, loads):
            with self.assertRaises(errors.InvalidJsonType):
                call(date)


class Values(unittest.TestCase):
    def test_a_value_without_a_document_is_an_error_with_its_place(self):
        for value, kind, place in [
            ({"a": [1, {"b c": 1.5}]}, errors.UnsupportedNumber, '$.a[1]."b c"'), ([[object()]], TypeError, "$[0][0]"), ({"a": {1: 2}}, TypeError, "$.a"),
            ([Decimal("NaN")], errors.UnsupportedNumber, "NaN at $[0]"), ([2**128], errors.UnsupportedNumber, "$[0]"), ([10**5000], errors.UnsupportedNumber, "128 bits at $[0]"),
            (["\ud800"], errors.NotUtf8, "$[0]"), ([float("nan")], errors.UnsupportedNumber, "$[0]"), ([b"x"], TypeError, "$[0]"), ([{1}], TypeError, "$[0]"),
        ]:
            with self.assertRaises(kind) as caught:
                dumps(value)
            self.assertIn(place, str(caught.exception))

    def test_a_key_of_two_objects(self):
        class Key(str):
            __hash__ = object.__hash__
            __eq__ = object.__eq__

        with self.assertRaises(errors.ObjectDuplicateKey):
            dumps({Key("a"): 1, Key("a"): 2})

    def test_a_circle_is_a_recursion_error(self):
        circle = []
        circle.append(circle)
        with self.assertRaises(RecursionError):
            dumps(circle)

    def test_a_value_that_changes_what_is_read(self):
        row = ["x" * 100, None]

        class Index:
            def __index__(self):
                row.clear()
                dumps({"within": ["y" * 100] * 10})
                return 7

        row[1] = Index()
        self.assertEqual(loads(dumps(row)), ["x" * 100, 7])

    def test_tuples_and_integers_of_other_types(self):
        class Mine(int):
            pass

        self.assertEqual(loads(dumps((Mine(3), (Mine(2**100), ()), {"k": (True,)}))), [3, [2**100, []], {"k": [True]}])
        try:
            import numpy
        except ImportError:
            self.skipTest("numpy is not installed (apt-get install python3-numpy)")
        self.assertEqual(loads(dumps([numpy.int64(5), numpy.uint64(2**64 - 1)])), [5, 2**64 - 1])
        self.assertEqual(loads(dumps(numpy.float64(0.25), floats="decimal")), Decimal("0.25"))


if __name__ == "__main__":
    unittest.main()
