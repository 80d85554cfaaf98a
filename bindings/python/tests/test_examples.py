"""The examples: SQLite by its query plan and in Python's order, and Dask if it is installed."""

import collections
import os
import signal
import sqlite3
import tempfile
import unittest
from decimal import Decimal

import dask_shards
import sqlite_index
from jsonb_paths import Column, dumps, equality_key, errors, loads
from jsonb_paths.shards import read_shard, write_shard, write_shards


class First(unittest.TestCase):
    def test_it_runs(self):
        import first

        self.assertEqual(len(first.people), 2)

    def test_json_text(self):
        import json_text

        self.assertEqual(len(json_text.grown_up), 1)


class Sqlite(unittest.TestCase):
    def setUp(self):
        self.connection = sqlite3.connect(":memory:")
        self.addCleanup(self.connection.close)
        self.people = sqlite_index.some_people(500)
        sqlite_index.register(self.connection)
        sqlite_index.fill(self.connection, self.people)

    def test_an_ordered_range_goes_by_the_index(self):
        found, plan = sqlite_index.between(self.connection, 20, 60)
        self.assertRegex(plan, r"SEARCH .*USING INDEX by_age")
        self.assertNotIn("TEMP B-TREE", plan)
        wanted = sorted(it["age"] for it in self.people if isinstance(it["age"], int) and 20 <= it["age"] <= 60)
        self.assertEqual([it["age"] for it in found], wanted)

    def test_numbers_are_below_texts_and_texts_below_null(self):
        rows = self.connection.execute(f"SELECT document FROM people ORDER BY {sqlite_index.BY_AGE}")
        ages = [loads(document)["age"] for (document,) in rows]
        rank = lambda age: (2, 0) if age is None else (1, age) if isinstance(age, str) else (0, age)
        self.assertEqual(ages, sorted((it["age"] for it in self.people), key=rank))

    def test_a_path_filters(self):
        wanted = [it for it in self.people if isinstance(it["age"], int) and it["age"] > 90]
        self.assertEqual(sqlite_index.matching(self.connection, "$.age > 90"), wanted)


class Shards(unittest.TestCase):
    def test_files_are_columns(self):
        rows = [dumps({"age": 1}), None, dumps([2]), dumps("x"), None]
        with tempfile.TemporaryDirectory() as folder:
            for column in (Column(rows), Column(rows)[1:4], Column(rows[:1]), Column()):
                file = write_shard(column, os.path.join(folder, "one.jsonb"))
                self.assertEqual(list(read_shard(file)), list(column))
            self.assertEqual([it for file in write_shards(Column(rows), folder, 3) for it in read_shard(file)], rows)
            file = write_shard(Column(rows), os.path.join(folder, "one.jsonb"))
            for cut in (0, 10, 63, 80, os.path.getsize(file) - 1):
                with open(file, "rb") as source, open(os.path.join(folder, "cut"), "wb") as out:
                    out.write(source.read()[:cut])
                with self.assertRaises(errors.BadOffsets):
                    read_shard(out.name)


class Dask(unittest.TestCase):
    def setUp(self):
        try:
            from distributed import Client, LocalCluster
        except ImportError:
            self.skipTest("Dask is not installed (apt-get install python3-distributed)")
        self.documents = dask_shards.some_documents(2000)
        folder = tempfile.TemporaryDirectory()
        self.addCleanup(folder.cleanup)
        self.files = write_shards(Column(self.documents), folder.name, 6)
        self.cluster = LocalCluster(n_workers=2, threads_per_worker=1, dashboard_address=None)
        self.addCleanup(self.cluster.close)
        self.client = Client(self.cluster)
        self.addCleanup(self.client.close)

    def test_queries_run_on_the_workers(self):
        ages = [loads(it)["age"] for it in self.documents]
        wanted = [it for it in ages if it < 50]
        self.assertEqual(dask_shards.count_all(self.client, self.files, "$.age < 50"), len(wanted))
        found = [loads(it)["age"] for column in dask_shards.filter_all(self.client, self.files, "$.age < 50") for it in column]
        self.assertEqual(found, wanted)
        found = [loads(it)["age"] for it in dask_shards.sort_all(self.client, self.files, "$.age < 50", "{age}")]
        self.assertEqual(found, sorted(wanted))
        groups = dask_shards.group_all(self.client, self.files, "{age}")
        self.assertEqual(groups, collections.Counter(equality_key(dumps(it)) for it in ages))
        self.assertEqual(groups[equality_key(dumps(Decimal("7.0")))], ages.count(7))
        # If a worker is lost, the other one does its work.
        first = next(iter(self.cluster.workers.values()))
        os.kill(first.pid, signal.SIGKILL)
        self.assertEqual(dask_shards.count_all(self.client, self.files, "$.age < 50"), len(wanted))
