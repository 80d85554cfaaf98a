"""Compares the package with Python's own json and Decimal, over values that Hypothesis makes up."""

import os
import re
import unittest
from decimal import Decimal

import documents
import jsonb_paths
from jsonb_paths import JsonbError, dumps, errors, from_json, loads, to_json

try:
    from hypothesis import given, settings, strategies
except ImportError:
    raise unittest.SkipTest("hypothesis is not installed (apt-get install python3-hypothesis)")

MANY = int(os.environ.get("MANY", "60"))  # random values in each test
texts = strategies.text()
settings.register_profile("here", database=None, deadline=None, max_examples=MANY, derandomize=True)
settings.load_profile("here")
decimals = strategies.builds(
    lambda whole, scale: Decimal(f"{whole}E-{scale}"), strategies.integers(-(2**127), 2**127 - 1), strategies.integers(0, 255)
)
scalars = strategies.one_of(strategies.none(), strategies.booleans(), strategies.integers(-(2**63), 2**64 - 1), decimals, texts)
values = strategies.recursive(scalars, lambda it: strategies.one_of(strategies.lists(it), strategies.dictionaries(texts, it)), max_leaves=15)
floats = strategies.floats(allow_nan=False, allow_infinity=False)


class Values(unittest.TestCase):
    @given(values)
    def test_dumps_and_loads(self, value):
        document = dumps(value)
        jsonb_paths.check(document)
        self.assertEqual(loads(document), value)

    @given(values, values)
    def test_documents_compare_as_their_keys_do(self, value, other):
        for left, right in ((value, other), (value, value), ([value, other], [value, value]), ({"a": value, "b": 1}, {"a": other})):
            left, right = dumps(left), dumps(right)
            mine, theirs = (jsonb_paths.sort_key(it, wide=True) for it in (left, right))
            self.assertEqual(jsonb_paths.compare(left, right), (mine > theirs) - (mine < theirs))

    @given(values)
    def test_json_text(self, value):
        document = from_json(documents.written(value))
        self.assertEqual(loads(document), value)
        self.assertEqual(re.sub(r"\\u[0-9a-f]{4}|\\.", "", to_json(document)), re.sub(r"\\u[0-9a-f]{4}|\\.", "", documents.written(value)))
        self.assertEqual(documents.read(to_json(document)), value)
        self.assertEqual(from_json(to_json(document)), document)

    @settings(max_examples=2 * MANY)
    @given(strategies.one_of(strategies.binary(), strategies.text(alphabet='[]{},:"\\ua1-+.eE0 \n\x00tfnrlsu')))
    def test_any_text(self, text):
        raw = text if isinstance(text, bytes) else text.encode()
        try:
            value = documents.read(raw.decode())
        except (ValueError, ArithmeticError):
            with self.assertRaises(JsonbError):
                from_json(raw)
            return
        try:
            self.assertEqual(loads(from_json(raw, duplicates="last")), value)
        except errors.UnsupportedNumber:
            self.assertRegex(raw.decode(), r"\d[eE]\d|\d[eE][+-]\d|\d{38}")
        except errors.InvalidJson:
            self.assertRegex(raw.decode(), "NaN|Infinity")
        except errors.NotUtf8:
            self.assertIn("\\u", raw.decode())

    @settings(max_examples=2 * MANY)
    @given(floats)
    def test_floats_become_the_decimals_that_repr_shows(self, value):
        with self.assertRaisesRegex(errors.UnsupportedNumber, re.escape(f"the float {value!r} (give a Decimal, or floats=\"decimal\") at $[0].a")):
            dumps([{"a": value}])
        wanted = Decimal(repr(value))
        if abs(wanted) >= 2**127:
            with self.assertRaises(errors.UnsupportedNumber):
                dumps(value, floats="decimal")
            return
        found = Decimal(loads(dumps(value, floats="decimal")))
        self.assertLessEqual(abs(found - wanted), Decimal("0.5E-255"))


if __name__ == "__main__":
    unittest.main()
