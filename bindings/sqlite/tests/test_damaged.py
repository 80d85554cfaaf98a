"""Damaged documents: each function returns or fails, and what jdoc_check accepts prints and reads back equal."""

import random
import sqlite3
import unittest

from support import Case

TEXTS = ['{"a":[1,-2,2.50,true,null,"x"],"b":{"c":{}}}', "[]", '"é"', "12.34", '[[[1]],{"k":[1,2]}]']
CALLS = [
    "jdoc(:d)", "jdoc_value(:d)", "jdoc_value(:d, '{a,1}')", "jdoc_type(:d)", "jdoc_length(:d)", "jdoc_get(:d, '{b}')", "jdoc_get(:d, 1)",
    "jdoc_array(:d, '$.**')", "jdoc_exists(:d, 'strict $.a[*].b')", "jdoc_match(:d, '$.a[*] > 1')", "jdoc_contains(:d, :e)",
    "jdoc_overlap(:d, :e)", "jdoc_concat(:d, :e)", "jdoc_intersection(:d, :e)", "jdoc_except(:d, :e)", "jdoc_distinct(:d)",
    "jdoc_strip_nulls(:d)", "jdoc_delete(:d, '{a,0}')", "jdoc_delete(:d, 0)", "jdoc_set(:d, 'a', :e)", "jdoc_insert(:d, 'k', :e)",
    "jdoc_array_insert(:d, 1, :e)", "jdoc_key(:d, :e)", "jdoc_equality_key(:d)", "jdoc_array_agg(:d)", "jdoc_object_agg('k', :d)",
    "count(value) FROM jdoc_rows(:d, '$.**')", "count(key), count(value), count(doc) FROM jdoc_each(:d)",
]


def damaged(source, document):
    made = bytearray(document)
    for _ in range(source.randrange(1, 4)):
        if made and source.random() < 0.8:
            made[source.randrange(len(made))] = source.choice([0, 1, 0x10, 0x20, 0x50, 0x40, 0x80, 0xFF, source.randrange(256)])
        elif made:
            del made[source.randrange(len(made)):]
    return bytes(made)


class Damaged(Case):
    def setUp(self):
        super().setUp()
        self.documents = [self.one("jdoc(?)", text) for text in TEXTS]

    def test_what_is_a_document_reads_back_equal(self):
        source, equal = random.Random(5), 0
        for _ in range(40000):
            document = damaged(source, source.choice(self.documents))
            try:
                text = self.one("jdoc_json(?)", document)
            except sqlite3.OperationalError as error:
                self.assertTrue(not self.one("jdoc_check(?)", document) or "TYPE" in str(error), document.hex())
                continue
            self.assertTrue(self.one("jdoc_check(?)", document), document.hex())
            self.assertTrue(self.one("jdoc_equality_key(?) = jdoc_equality_key(?)", text, document), document.hex())
            equal += 1
        self.assertGreater(equal, 1000)

    def test_each_function_returns_or_fails(self):
        source, counts = random.Random(6), [0, 0]
        for _ in range(2000):
            words = {"d": damaged(source, source.choice(self.documents)), "e": damaged(source, source.choice(self.documents))}
            for call in CALLS:
                try:
                    self.db.execute(f"SELECT {call}", words).fetchall()
                    counts[0] += 1
                except sqlite3.OperationalError as error:
                    self.assertIn("JDOC_", str(error))
                    counts[1] += 1
        self.assertGreater(min(counts), 1000)


if __name__ == "__main__":
    unittest.main()
