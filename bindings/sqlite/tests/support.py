"""A connection with the extension, which JDOC_SQLITE names without its suffix."""

import os
import sqlite3
import unittest

EXTENSION = os.environ["JDOC_SQLITE"]


def connect():
    it = sqlite3.connect(":memory:")
    it.enable_load_extension(True)
    it.load_extension(EXTENSION)
    it.enable_load_extension(False)
    return it


class Case(unittest.TestCase):
    def setUp(self):
        self.db = connect()
        self.addCleanup(self.db.close)

    def one(self, sql, *values):
        """The value of an expression."""
        return self.db.execute(f"SELECT {sql}", values).fetchone()[0]

    def fails(self, words, sql, *values):
        with self.assertRaises(sqlite3.OperationalError) as caught:
            self.one(sql, *values)
        for word in words.split():
            self.assertIn(word, str(caught.exception), sql)

    def says(self, message, sql, *values):
        with self.assertRaises(sqlite3.OperationalError) as caught:
            self.db.execute(f"SELECT {sql}", values).fetchall()
        self.assertEqual(str(caught.exception), message, sql)

    def plan(self, sql):
        return " ".join(row[3] for row in self.db.execute(f"EXPLAIN QUERY PLAN {sql}"))
