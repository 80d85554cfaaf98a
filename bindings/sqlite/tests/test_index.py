"""Indexes, checks and views: what SQLite allows only to deterministic and innocuous functions, and the plans that it makes."""

import json
import random
import sqlite3
import unittest

from support import Case

AGE = "jdoc_get(d, '{age}')"
KEY = f"jdoc_key({AGE})"


class Index(Case):
    def setUp(self):
        super().setUp()
        self.db.execute("CREATE TABLE t (d BLOB NOT NULL CHECK (jdoc_check(d)))")
        source = random.Random(3)
        self.ages = [source.choice([source.randrange(100), f"{source.randrange(100)}", None, source.randrange(1000) / 10])
                     for _ in range(2000)]
        self.db.executemany("INSERT INTO t VALUES (jdoc(?))",
                            [(json.dumps({"age": it, "n": n}),) for n, it in enumerate(self.ages)])
        self.db.execute(f"CREATE INDEX by_age ON t ({KEY})")
        self.db.execute("CREATE INDEX vip ON t (1) WHERE jdoc_match(d, '$.age > 98')")

    def test_range_by_the_index(self):
        sql = f"SELECT jdoc_value(d, '{{age}}') FROM t WHERE {KEY} BETWEEN jdoc_key(30) AND jdoc_key('40.5') ORDER BY {KEY}"
        plan = self.plan(sql)
        self.assertIn("SEARCH t USING INDEX by_age", plan)
        self.assertNotIn("TEMP B-TREE", plan)
        self.assertEqual([it for (it,) in self.db.execute(sql)],
                         sorted(it for it in self.ages if isinstance(it, (int, float)) and 30 <= it <= 40.5))

    def test_order_by_the_index(self):
        plan = self.plan(f"SELECT d FROM t ORDER BY {KEY} LIMIT 5")
        self.assertIn("SCAN t USING INDEX by_age", plan)
        self.assertNotIn("TEMP B-TREE", plan)

    def test_two_fields(self):
        both = f"jdoc_key({AGE}, jdoc_get(d, '{{n}}'))"
        self.db.execute(f"CREATE INDEX by_both ON t ({both})")
        sql = f"SELECT jdoc_value(d, '{{n}}') FROM t WHERE {both} BETWEEN jdoc_key(5) AND jdoc_key(5, 1000) ORDER BY {both}"
        self.assertIn("SEARCH t USING INDEX by_both", self.plan(sql))
        self.assertEqual([it for (it,) in self.db.execute(sql)],
                         [n for n, it in enumerate(self.ages) if it == 5 and not isinstance(it, str) and n <= 1000])

    def test_partial_index(self):
        sql = "SELECT count(*) FROM t WHERE jdoc_match(d, '$.age > 98')"
        self.assertIn("INDEX vip", self.plan(sql))
        self.assertEqual(self.db.execute(sql).fetchone()[0], sum(isinstance(it, (int, float)) and it > 98 for it in self.ages))

    def test_check(self):
        for bad in ("x'0102'", "'{}'", "5"):
            with self.assertRaises(sqlite3.IntegrityError):
                self.db.execute(f"INSERT INTO t VALUES ({bad})")

    def test_generated_column(self):
        self.db.execute("CREATE TABLE g (d BLOB, age GENERATED ALWAYS AS (jdoc_value(d, '{age}')) STORED)")
        self.db.execute("INSERT INTO g (d) SELECT d FROM t")
        self.db.execute("CREATE INDEX g_age ON g (age)")
        self.assertIn("g_age", self.plan("SELECT 1 FROM g WHERE age > 5"))

    def test_views_of_a_schema_that_is_not_trusted(self):
        self.db.execute("PRAGMA trusted_schema = OFF")
        self.db.execute("CREATE VIEW v AS SELECT jdoc_value(d, '{age}') AS age, r.value FROM t, jdoc_rows(d, '$.n') AS r")
        self.db.execute("CREATE VIEW w AS SELECT jdoc_array_agg(d) AS all_of_them FROM t")
        self.assertEqual(self.db.execute("SELECT count(*) FROM v").fetchone()[0], 2000)
        self.assertEqual(self.db.execute("SELECT jdoc_length(all_of_them) FROM w").fetchone()[0], 2000)


if __name__ == "__main__":
    unittest.main()
