"""A server under load: timeouts, damaged bytes, dump and restore, parallel queries, and results compared with jsonb's.

PGHOST and PGUSER name a server that has the extension. The exit status is 0 if all tests pass. JDOC_CALLS=1000000 makes a million random
calls instead of 20,000, and cuts off ten times as many queries (bindings/postgres/test.sh passes it on); it takes some minutes.
"""

import json
import os
import random
import re
import subprocess
import sys
import tempfile
import time
import unittest

DATABASE = "jdoc_server"
COUNT = int(os.environ.get("JDOC_CALLS", "20000"))
CUTS = 100 if COUNT >= 1000000 else 10
UNDER_VALGRIND = bool(os.environ.get("JDOC_VALGRIND"))
# Documents and paths for both types. Keys are few, so that paths find them.
KEYS = ["a", "b", "key", "Zürich", "x y"]
PATHS = [
    "$", "$.a", "$.a[*]", "$.*", "$.**", "$.a[0]", "$.a[last]", '$."x y"', "$.a ? (@ > 1)", "$[*] ? (@.a == 1 || @.b == \"x\")", "strict $.a",
    "$.key[*] ? (exists(@.a))", "$.a + 1", "-$.a", "$.b ? (@ starts with \"a\")", "$.a ? (@ != 2)", "strict $.a.b", "$.**{1 to 2}",
]
MATCHES = ["$.a > 1", "$.a == $.b", "exists($.a)", "$.key[*] < 5", "$.b starts with \"a\" && $.a < 100", "$.a == 1", "strict $.a > 1"]
# Paths that mean the same in both on documents without arrays, or on an array (docs/DIFFERENCES.md).
WITHOUT_ARRAYS = ["$", "$.a", "$.*", "$.**", '$."x y"', "$.a ? (@ > 1)", "strict $.a", "$.a + 1", "-$.a", "$.b ? (@ starts with \"a\")", "strict $.a.b"]
OF_ARRAYS = ["$[*]", "$[0]", "$[last]", "$[0 to 1]", "strict $[*]", "$[*] ? (@ == 1)", "$[*] ? (@ starts with \"a\")"]


def psql(text, database=DATABASE, check=True):
    words = ["psql", "-XAtq", "-v", "ON_ERROR_STOP=1", "-d", database, "-f", "-"]
    said = subprocess.run(words, input=text.encode(), stdout=subprocess.PIPE, stderr=subprocess.STDOUT)
    if check and said.returncode:
        raise AssertionError(said.stdout.decode())
    return said.stdout.decode().strip()


def literal(text):
    return "'" + text.replace("'", "''") + "'"


def random_value(source, depth):
    kind = source.randrange(8 if depth else 5)
    if kind == 0:
        return source.choice([None, True, False])
    if kind <= 2:
        return source.choice([source.randrange(10), source.randrange(-2**63, 2**63)])
    if kind <= 4:
        return "".join(source.choice('abé"\\\n€𝄞') for _ in range(source.randrange(4)))
    if kind <= 6:
        return {key: random_value(source, depth - 1) for key in source.sample(KEYS, source.randrange(5))}
    return [random_value(source, depth - 1) for _ in range(source.randrange(4))]


class Interrupts(unittest.TestCase):
    """Queries that take minutes end when the time is over, and the session goes on."""

    SLOW = [
        "jdoc_path_exists((repeat('[', 300) || repeat(']', 300))::jdoc, '$.**?(exists(@.**?(exists(@.**?(exists(@.**?(@ == 7)))))))')",
        "jdoc_path_query_array((repeat('[', 300) || repeat(']', 300))::jdoc, '$.**.**.**.**')",
        "count(*) FROM (SELECT jdoc_path_query((repeat('[', 300) || repeat(']', 300))::jdoc, '$.**.**.**.**')) AS x",
        "count(*) FROM (SELECT jdoc_path_query(('[' || repeat('1,', 1000000) || n || ']')::jdoc, '$[*]') FROM generate_series(1, 1000) AS n) AS x",
        "('{\"k\":[' || repeat('1,', 100000) || '2]}')::jdoc @> ('{\"k\":[' || repeat('2,', 100000) || '2]}')::jdoc",
        "sum(jdoc_length(('[' || repeat('1,', 1000000) || n || ']')::jdoc)) FROM generate_series(1, 1000) AS n",
    ]
    LATEST = 10_000 if UNDER_VALGRIND else 200  # milliseconds after the timeout

    def late(self, timeout, select):
        """The milliseconds by which a query ended after its timeout."""
        said = psql(f"SET client_min_messages = error; SET statement_timeout = '{timeout}ms';\n\\timing on\n\\set ON_ERROR_STOP 0\n{select};\n"
                    "\\timing off\nSELECT 'goes on'", check=False)
        self.assertIn("canceling statement due to statement timeout", said)
        self.assertIn("goes on", said)
        return float(re.search(r"Time: ([0-9.]+) ms", said)[1]) - timeout

    def ends_in_time(self, timeout, select):
        """Tries again on a machine that is busy with other work."""
        late = [self.late(timeout, select)]
        while late[-1] > self.LATEST and len(late) < 5:
            late.append(self.late(timeout, select))
        self.assertLessEqual(min(late), self.LATEST, select)

    def test_statement_timeout(self):
        for call in self.SLOW:
            self.ends_in_time(200, f"SELECT {call}")

    def test_timeout_of_one_comparison(self):
        """Two equal documents of three million elements, whose comparison alone takes longer than the timeout."""
        psql("CREATE TABLE alike AS SELECT ('[' || repeat('1,', 3000000) || '1]')::jdoc AS a, ('[' || repeat('1.0,', 3000000) || '1]')::jdoc AS b")
        self.ends_in_time(50, "SELECT jdoc_cmp(a, b) FROM alike")
        self.assertEqual(psql("SELECT jdoc_cmp(a, b), a = b FROM alike; DROP TABLE alike"), "0|t")

    def test_interrupts_that_do_not_cancel(self):
        """The process is asked to log its memory while it works: the calls are repeated, and their results are right."""
        words = ["psql", "-XAtq", "-d", DATABASE, "-c", "SELECT pg_backend_pid()", "-c",
                 "SELECT count(*) FROM generate_series(1, 20000) AS n WHERE jdoc_path_query_first(('[1,' || n || ']')::jdoc, '$[*] ? (@ > 1)')::int8 = n"]
        with subprocess.Popen(words, stdout=subprocess.PIPE, text=True) as session:
            process = int(session.stdout.readline())
            for _ in range(20):
                psql(f"SELECT pg_log_backend_memory_contexts({process})", check=False)
            self.assertEqual(session.stdout.read().strip(), "19999")


@unittest.skipIf(UNDER_VALGRIND, "valgrind takes more memory")
class Rows(unittest.TestCase):
    """A function that returns rows copies one item at a time."""

    PEAK = "split_part(split_part(pg_read_file('/proc/self/status'), 'VmHWM:', 2), 'kB', 1)::int / 1024"

    def growth(self, document, select):
        """What a query of a stored document returns, and the megabytes by which it raises the greatest memory of the process."""
        psql(f"DROP TABLE IF EXISTS stored; CREATE TABLE stored (d jdoc); ALTER TABLE stored ALTER d SET STORAGE external; INSERT INTO stored SELECT {document}")
        said = psql(f"SELECT sum(jdoc_length(d)) FROM stored; SELECT {self.PEAK}; {select}; SELECT {self.PEAK}; DROP TABLE stored").splitlines()
        return said[2:-1], int(said[-1]) - int(said[1])

    def test_the_first_of_a_million_items(self):
        begun = time.monotonic()
        found, more = self.growth("('[' || repeat('\"' || repeat('x', 100) || '\",', 999999) || '1]')::jdoc",
                                  "SELECT jdoc_path_query(d, '$[*]') FROM stored LIMIT 1")
        self.assertEqual(found, ['"' + "x" * 100 + '"'])
        self.assertLess(more, 150)
        self.assertLess(time.monotonic() - begun, 30)

    def test_items_that_are_longer_than_their_document(self):
        """The items of 20,001 nested arrays take 1.6 gigabytes one after the other."""
        found, more = self.growth("(repeat('[', 20001) || repeat(']', 20001))::jdoc",
                                  "SELECT count(*), sum(length(item::bytea)) FROM (SELECT jdoc_path_query(d, '$.**') AS item FROM stored OFFSET 0) AS x")
        self.assertEqual(found, [f"20001|{sum(4 + 8 * it for it in range(20001))}"])
        self.assertLess(more, 50)


class Damage(unittest.TestCase):
    def test_damaged_bytes(self):
        """No damaged document becomes a jdoc; what does prints and reads back equal."""
        said = psql("""
            CREATE OR REPLACE FUNCTION pg_temp.try(bytes bytea) RETURNS text LANGUAGE plpgsql AS $$
            DECLARE it jdoc;
            BEGIN
                it := bytes::jdoc;
                IF it::text::jdoc = it AND it::jsonb::jdoc = it THEN RETURN 'equal'; END IF;
                RETURN 'differs ' || bytes::text;
            EXCEPTION WHEN OTHERS THEN RETURN SQLSTATE;
            END $$;
            SELECT setseed(0.5);
            WITH documents(d) AS (VALUES
                ('{"a":[1,-2,2.50,true,null,"x"],"b":{"c":{}}}'::jdoc::bytea), ('[]'::jdoc::bytea), ('"é"'::jdoc::bytea),
                ('12.34'::jdoc::bytea), ('[[[1]],{"k":[1,2]}]'::jdoc::bytea))
            SELECT pg_temp.try(set_byte(set_byte(d, (random() * (length(d) - 1))::int, (ARRAY[0, 1, 16, 32, 64, 80, 128, 255])[n % 8 + 1]),
                                        (random() * (length(d) - 1))::int, (random() * 255)::int)) AS outcome, count(*)
            FROM documents, generate_series(1, 4000) AS n GROUP BY 1 ORDER BY 1""")
        outcomes = dict(line.split("|") for line in said.splitlines() if "|" in line)
        self.assertLessEqual(set(outcomes), {"equal", "22P03", "22003", "22P05", "22023"}, outcomes)
        self.assertGreater(int(outcomes["equal"]), 100)
        self.assertGreater(int(outcomes["22P03"]), 1000)


class Calls(unittest.TestCase):
    """Random calls of each function: all return or fail with a documented SQLSTATE."""

    CALLS = [
        "a -> name", "a ->> name", "a -> i", "a ->> i", "a #> steps", "a #>> steps", "a #- steps", "a - name", "a - steps", "a - i", "a || b", "a @> b",
        "a <@ b", "a ? name", "a ?| steps", "a ?& steps", "a @? path", "a @@ path", "jdoc_path_exists(a, path)", "jdoc_path_match(a, path)",
        "jdoc_path_query_first(a, path)", "jdoc_path_query_array(a, path, silent => true)", "(SELECT count(*) FROM jdoc_path_query(a, path))",
        "(SELECT count(*) FROM jdoc_array_elements(a))", "(SELECT count(value) FROM jdoc_each(a))", "(SELECT count(*) FROM jdoc_object_keys(a))", "jdoc_path_is_predicate(path)", "jdoc_set(a, name, b)", "jdoc_set(a, name, b, false)", "jdoc_array_insert(a, i, b)",
        "jdoc_strip_nulls(a)", "jdoc_sort_key(a)", "jdoc_equality_key(a)", "jdoc_typeof(a)", "jdoc_length(a)", "a = b", "a < b", "jdoc_cmp(a, b)",
        "jdoc_hash(a)", "a::text::jdoc", "a::jsonb::jdoc", "a::bytea::jdoc", "a::int8", "a::int4", "a::numeric", "a::float8", "a::bool", "(a::text || name)::jdoc", "name::jdocpath",
        "overlay(a::bytea PLACING '\\xff'::bytea FROM 1 + abs(i) % length(a::bytea))::jdoc",
    ]
    STATES = {"22P02", "22003", "22P03", "22P05", "42601", "22038", "2203A", "22012", "0A000", "22030", "2203C", "22023", "22018", "54000", "22004"}

    @classmethod
    def setUpClass(cls):
        source = random.Random(11)
        documents = [json.dumps(random_value(source, 3), ensure_ascii=False) for _ in range(97)] + ["[" * 300 + "]" * 300, "1e-40", "-0.5"]
        names = KEYS + ["0", "", "missing", "$.a", '"']
        steps = ["{a}", "{a,0}", "{-1}", "{}", "{NULL}", '{""}', "{x y,b}", "{99999999999}"]
        arrays = {"documents jdoc": documents, "names text": names, "paths jdocpath": PATHS + MATCHES, "steps text": steps}
        psql("CREATE TABLE pools (" + ", ".join(f"{it}[]" for it in arrays) + "); INSERT INTO pools VALUES ("
             + ", ".join(f"ARRAY[{','.join(map(literal, it))}]::{name.split()[1]}[]" for name, it in arrays.items()) + ")")
        cases = "".join(f" WHEN {n} THEN found := ({call})::text;" for n, call in enumerate(cls.CALLS))
        psql(f"""CREATE FUNCTION attempt(n int, a jdoc, b jdoc, name text, path jdocpath, steps text[], i int) RETURNS text LANGUAGE plpgsql AS $$
             DECLARE found text;
             BEGIN CASE n {cases} END CASE; RETURN 'returns'; EXCEPTION WHEN query_canceled THEN RAISE; WHEN OTHERS THEN RETURN SQLSTATE; END $$;
             CREATE FUNCTION attempts(count int) RETURNS TABLE (n int, outcome text) LANGUAGE sql AS $$
             SELECT k, attempt(k, documents[1 + (random() * 99)::int], documents[1 + (random() * 99)::int], names[1 + (random() * 9)::int],
                               paths[1 + (random() * {len(PATHS + MATCHES) - 1})::int], steps[1 + (random() * 7)::int]::text[], (random() * 8 - 4)::int)
             FROM pools, generate_series(1, count) AS g, LATERAL (SELECT g % {len(cls.CALLS)} AS k) AS which $$""")

    def test_random_calls(self):
        said = psql(f"SELECT setseed(0.25); SELECT outcome, count(*), count(DISTINCT n) FROM attempts({COUNT}) GROUP BY 1")
        outcomes = {line.split("|")[0]: line.split("|")[1:] for line in said.splitlines() if line}
        self.assertLessEqual(set(outcomes) - {"returns"}, self.STATES, outcomes)
        self.assertEqual(int(outcomes["returns"][1]), len(self.CALLS) - 1, outcomes)
        self.assertEqual(sum(int(it[0]) for it in outcomes.values()), COUNT)

    def test_timeouts(self):
        """A session whose queries are cut off again and again goes on."""
        cut = "SELECT count(*) FROM attempts(10000000);\n" * CUTS
        said = psql(f"SET statement_timeout = '60ms';\n\\set ON_ERROR_STOP 0\n{cut}SET statement_timeout = 0;\n"
                    "SELECT 'goes on' FROM attempts(10) LIMIT 1", check=False)
        self.assertEqual(said.count("canceling statement due to statement timeout"), CUTS)
        self.assertIn("goes on", said)

    def test_cancelled_queries(self):
        """A session goes on after queries that another session cancels."""
        source = random.Random(5)
        words = ["psql", "-XAtq", "-d", DATABASE, "-c", "SELECT pg_backend_pid()"] + ["-c", "SELECT count(*) FROM attempts(10000000)"] * CUTS
        with subprocess.Popen(words, stdout=subprocess.PIPE, stderr=subprocess.STDOUT, text=True) as session:
            process = int(session.stdout.readline())
            cancel = f"SELECT pg_sleep({{}}), pg_cancel_backend({process}) FROM pg_stat_activity WHERE pid = {process} AND state = 'active'"
            while session.poll() is None:
                psql(cancel.format(source.random() / 20), check=False)
            said = session.stdout.read()
        self.assertEqual(said.count("canceling statement due to user request"), CUTS, said)


class BesideJsonb(unittest.TestCase):
    @classmethod
    def setUpClass(cls):
        source = random.Random(7)
        texts = [json.dumps(random_value(source, 3), ensure_ascii=False) for _ in range(1500)]
        rows = ",".join(f"({n},{literal(it)})" for n, it in enumerate(texts))
        psql(f"CREATE TABLE texts (n int, t text); INSERT INTO texts VALUES {rows};"
             "CREATE TABLE both_types AS SELECT n, t, t::jdoc AS d, t::jsonb AS j FROM texts")

    def differing(self, condition):
        """Rows for which a condition is not true, of which the first is shown."""
        self.assertEqual(psql(f"SELECT t FROM both_types AS x WHERE ({condition}) IS NOT TRUE LIMIT 1"), "", condition)

    def test_texts_and_casts(self):
        self.differing("d::text::jsonb = j AND d::jsonb = j AND j::jdoc = d AND d::bytea::jdoc = d")
        self.differing("jdoc_typeof(d) = jsonb_typeof(j)")

    def test_casts_of_scalars(self):
        """Numbers of all sizes and signs, halves, which are rounded away from zero, and the ends of the types."""
        numbers = ["0", "-0", "1", "-1", "0.5", "-0.5", "1.5", "2.5", "-2.5", "2.4999", "1e3", "1.25e2", "12345e-4", "2147483647", "-2147483648", "0.1"]
        casts = " AND ".join(f"t::jdoc::{it} = t::jsonb::{it}" for it in ("int4", "int8", "numeric", "float8"))
        self.assertEqual(psql(f"SELECT count(*) FROM unnest(ARRAY[{','.join(map(literal, numbers))}]) AS t WHERE {casts}"), str(len(numbers)))
        wide = ["9223372036854775807", "-9223372036854775808", "2147483648", "9007199254740993"]
        self.assertEqual(psql(f"SELECT count(*) FROM unnest(ARRAY[{','.join(map(literal, wide))}]) AS t WHERE t::jdoc::int8 = t::jsonb::int8"), str(len(wide)))
        self.differing("jsonb_typeof(j) <> 'number' OR d::numeric = j::numeric AND d::float8 = j::float8")
        self.differing("jsonb_typeof(j) <> 'boolean' OR d::bool = j::bool")

    def test_operators(self):
        for key in KEYS:
            it = literal(key)
            self.differing(f"(d -> {it})::jsonb IS NOT DISTINCT FROM j -> {it}")
            self.differing(f"jsonb_typeof(j -> {it}) IN ('array', 'object') OR (d ->> {it}) IS NOT DISTINCT FROM (j ->> {it})")
            self.differing(f"(d ? {it}) = (j ? {it}) AND (jsonb_typeof(j) NOT IN ('array', 'object') OR (d - {it})::jsonb = j - {it})")
            self.differing(f"jsonb_typeof(j) NOT IN ('array', 'object') OR (d - ARRAY[{it}, NULL, 'a'])::jsonb = j - ARRAY[{it}, NULL, 'a']")
            self.differing(f"(d #> ARRAY[{it}, '0'])::jsonb IS NOT DISTINCT FROM j #> ARRAY[{it}, '0']")
            self.differing(f"jsonb_typeof(j) <> 'object' OR (d #- ARRAY[{it}, '0'])::jsonb = j #- ARRAY[{it}, '0']")
        self.differing("NOT EXISTS (SELECT 1 FROM both_types AS y WHERE y.n % 50 = x.n % 50 AND (x.d @> y.d) <> (x.j @> y.j))")
        self.differing("jsonb_typeof(j) <> 'object' OR (d || '{\"a\":[1]}')::jsonb = j || '{\"a\":[1]}'")
        self.differing("NOT EXISTS (SELECT 1 FROM both_types AS y WHERE y.n % 50 = x.n % 50 AND (x.d = y.d) <> (x.j = y.j))")

    def test_children(self):
        """Each child of containers of up to 70 children, and keys and indexes that they do not have."""
        psql("""CREATE TEMPORARY TABLE containers AS
                SELECT n, j, j::jdoc AS d, a, a::jdoc AS b FROM generate_series(0, 70) AS n,
                LATERAL (SELECT coalesce(jsonb_object_agg(repeat('k', i % 5) || i % 100, to_jsonb(repeat('v', i))), '{}') AS j,
                                coalesce(jsonb_agg(CASE i % 4 WHEN 0 THEN to_jsonb(i) WHEN 1 THEN to_jsonb(repeat('é', i)) WHEN 2 THEN 'null' ELSE '{"a":[]}' END), '[]') AS a
                         FROM generate_series(1, n) AS i) AS made;
                DO $$ BEGIN ASSERT (
                    SELECT count(*) = 5325 AND bool_and((d -> k)::jsonb IS NOT DISTINCT FROM j -> k AND (d ->> k) IS NOT DISTINCT FROM j ->> k
                                AND (b -> i)::jsonb IS NOT DISTINCT FROM a -> i AND (b ->> i) IS NOT DISTINCT FROM a ->> i
                                AND (d #> ARRAY[k])::jsonb IS NOT DISTINCT FROM j #> ARRAY[k] AND (b #> ARRAY[i::text])::jsonb IS NOT DISTINCT FROM a #> ARRAY[i::text])
                    FROM containers, generate_series(-n - 2, n + 2) AS i, LATERAL (SELECT repeat('k', abs(i) % 5) || abs(i) % 100 AS k) AS keys);
                END $$""")

    def test_members(self):
        objects = "jsonb_typeof(j) <> 'object'"
        self.assertGreater(int(psql("SELECT count(*) FROM both_types WHERE jsonb_typeof(j) = 'object' AND j <> '{}'")), 100)
        self.differing(f"{objects} OR (SELECT coalesce(jsonb_object_agg(key, value::jsonb), '{{}}') FROM jdoc_each(d)) = j")
        keys = "SELECT array_agg(key ORDER BY key COLLATE \"C\") FROM {} AS key"
        self.differing(f"{objects} OR ({keys.format('jdoc_object_keys(d)')}) IS NOT DISTINCT FROM ({keys.format('jsonb_object_keys(j)')})")

    def test_paths(self):
        """Items of a path, in any order: both types order keys in their own way. What is an error for one is left out."""
        psql("""CREATE OR REPLACE FUNCTION items(j jsonb, p jsonpath) RETURNS jsonb LANGUAGE plpgsql IMMUTABLE AS $$
                BEGIN RETURN jsonb_path_query_array(j, p); EXCEPTION WHEN OTHERS THEN RETURN NULL; END $$;
                CREATE OR REPLACE FUNCTION items(d jdoc, p jdocpath) RETURNS jdoc LANGUAGE plpgsql IMMUTABLE AS $$
                BEGIN RETURN jdoc_path_query_array(d, p); EXCEPTION WHEN OTHERS THEN RETURN NULL; END $$;
                CREATE OR REPLACE FUNCTION alike(a jsonb, b jsonb) RETURNS bool LANGUAGE sql IMMUTABLE AS $$
                SELECT coalesce(a @> b AND b @> a AND jsonb_array_length(a) = jsonb_array_length(b), true) $$""")
        for which, paths in (("t NOT LIKE '%[%'", WITHOUT_ARRAYS), ("jsonb_typeof(j) = 'array' AND t NOT LIKE '%[%[%'", OF_ARRAYS)):
            self.assertGreater(int(psql(f"SELECT count(*) FROM both_types WHERE {which}")), 50)
            for path in paths:
                it = literal(path)
                self.differing(f"NOT ({which}) OR alike(items(d, {it}::jdocpath)::jsonb, items(j, {it}::jsonpath))")
                self.differing(f"NOT ({which}) OR (d @? {it}) IS NULL OR (d @? {it}) = (j @? {it})")

    def test_predicates(self):
        for path in MATCHES:
            it = literal(path)
            self.differing(f"t LIKE '%[%' OR ((d @@ {it}) IS TRUE) = ((j @@ {it}) IS TRUE)")
            self.assertEqual(psql(f"SELECT jdoc_path_is_predicate({it})"), "t")


class Sorting(unittest.TestCase):
    """Documents are compared and sorted as their keys are: by datums of eight bytes, by items, and from disk."""

    def test_comparisons(self):
        source = random.Random(13)
        numbers = ["0", "1", "1.0", "1.5", "1.50", "-1", "-1.5", "0.1", "0.01", "-0.001", "10", "1e37", "12345678901234567890", "-9223372036854775808",
                   "18446744073709551615", "0.12345678901234567890123", "127", "128", "-128", "-129", "255", "256"]
        texts = numbers + [f"[{it}]" for it in numbers] + [f'{{"a":{it},"b":[{it},"x"]}}' for it in numbers]
        texts += ['"a"', '"a\\u0001"', '"ab"', '""', '"b"', "[]", "[[]]", "[[],[]]", "{}", '{"":1}', '{"a":1}', '{"a":{}}', '{"b":1}', "[null]", "null", "true", "[false]"]
        texts += ["[" * 40 + it + "]" * 40 for it in ("1", "2", '"a"', "")]
        texts += [json.dumps(random_value(source, 3), ensure_ascii=False) for _ in range(150)]
        days = ["10%08x" % it for it in (0, 1, 256, 2**31)]
        dates = [f"2000000060000005{it}" for it in days] + [f"800000026000000520000002{it}500{end}" for it in days for end in (1, 2)]
        rows = ",".join([f"({n},{literal(it)}::jdoc)" for n, it in enumerate(texts)] + [f"(0, '\\x{it}'::bytea::jdoc)" for it in dates])
        said = psql(f"""CREATE TEMPORARY TABLE compared (n int, d jdoc); INSERT INTO compared VALUES {rows};
                        SELECT x.d::bytea, y.d::bytea, jdoc_cmp(x.d, y.d) FROM compared AS x, compared AS y,
                        LATERAL (SELECT jdoc_sort_key(x.d) AS k, jdoc_sort_key(y.d) AS l) AS keys
                        WHERE sign(jdoc_cmp(x.d, y.d)) <> CASE WHEN k < l THEN -1 WHEN k > l THEN 1 ELSE 0 END LIMIT 3""")
        self.assertEqual(said, "")

    def test_large_documents(self):
        """Large documents are compared child by child, and whether one contains another is found so."""
        # What comes before the ends: equal by value, and not in bytes.
        before = [f"repeat('{it},', 180000)" for it in ("1", "1.0")] + [f"'\"' || repeat('x', {2**20}) || '\",'"]
        around = ["[@]", "[[@],5]", '{"a":[@],"b":0}', '[[0,{"k":[@]}]]']
        ends = ["1", "1.0", "2", '"x"', "null", "[]", "[1]", "{}", "1,2", "[1,2],0", "[1],3"]
        texts = [f"replace('{it}', '@', {start} || '{end}')" for start in before for it in around for end in (ends if it == "[@]" else ends[1:3])]
        texts += [f"replace('{it}', '@', {before[0]} || '1')" for it in ('{"a":[@],"b":1}', '{"b":[@]}', '{"a":[],"b":[@]}')]
        texts += [f"'\"' || repeat('x', {2**20}) || '{end}\"'" for end in ("", "y", "z", "\\u0001")] + ["'null'", "'true'", "'1'", "'[]'", "'{}'"]
        rows = ",".join(f"(({it})::jdoc)" for it in texts)
        said = psql(f"""CREATE TEMPORARY TABLE large (n int, d jdoc, k bytea);
                        ALTER TABLE large ALTER d SET STORAGE external, ALTER k SET STORAGE external;
                        INSERT INTO large SELECT row_number() OVER (), d, jdoc_sort_key(d) FROM (VALUES {rows}) AS v (d);
                        SELECT count(*) FROM large WHERE length(k) > 1000000;
                        SELECT x.n, y.n, jdoc_cmp(x.d, y.d) FROM large AS x JOIN large AS y ON (x.n * 3 + y.n) % 17 = 0
                        WHERE sign(jdoc_cmp(x.d, y.d)) <> CASE WHEN x.k < y.k THEN -1 WHEN x.k > y.k THEN 1 ELSE 0 END LIMIT 3;
                        SELECT x.n, y.n FROM large AS x JOIN large AS y ON x.n % 6 = 0 AND y.n IN (x.n, x.n + 1)
                        WHERE (x.d @> y.d) <> (x.d::jsonb @> y.d::jsonb) LIMIT 3""")
        self.assertEqual(said, str(len(texts) - 5))

    def test_orders(self):
        psql("""CREATE TABLE sorted AS
                SELECT n, ('{"first":"the same for all","list":[1,2,3],"n":' || n * 7919 % 1500 || '}')::jdoc AS d, 'objects' AS which FROM generate_series(1, 2500) AS n
                UNION ALL SELECT n, (n * 7919 % 1500 || '.' || n % 10)::jdoc, 'numbers' FROM generate_series(1, 2500) AS n
                UNION ALL SELECT n, ('[' || repeat('"a",', n % 20) || n % 3 || ']')::jdoc, 'arrays' FROM generate_series(1, 2500) AS n""")
        for which in ("which = 'objects'", "which = 'numbers'", "which = 'arrays'", "true", "which <> 'objects'"):
            for memory in ("64kB", "64MB"):
                for also in ("", "ORDER BY n DESC"):
                    sql = "SELECT md5(string_agg(jdoc_sort_key(d)::text, ',')) FROM (SELECT d FROM (SELECT * FROM sorted WHERE {} {} OFFSET 0) AS x ORDER BY {}) AS y"
                    said = psql(f"SET work_mem = '{memory}'; {sql.format(which, also, 'd')}; {sql.format(which, '', 'jdoc_sort_key(d)')};"
                                f"{sql.format(which, also, 'd DESC')}; {sql.format(which, '', 'jdoc_sort_key(d) DESC')}").split()
                    self.assertEqual(said[0], said[1], (which, memory, also))
                    self.assertEqual(said[2], said[3], (which, memory, also))


class Storage(unittest.TestCase):
    def test_dump_and_restore(self):
        psql("""DROP TABLE IF EXISTS kept; CREATE TABLE kept (n int, d jdoc CHECK (d @? '$.n'), p jdocpath);
                INSERT INTO kept SELECT n, ('{"n":' || n || ',"t":"' || repeat('x', n) || '"}')::jdoc, 'strict $.n' FROM generate_series(1, 500) AS n;
                CREATE INDEX ON kept (d); CREATE INDEX ON kept ((d -> 'n')); CREATE INDEX ON kept USING hash (d)""")
        with tempfile.TemporaryDirectory() as folder:
            for form in ("plain", "custom"):
                file = os.path.join(folder, form)
                subprocess.run(["pg_dump", "-d", DATABASE, "--format", form, "-f", file], check=True)
                psql("DROP DATABASE IF EXISTS restored", "postgres")
                psql("CREATE DATABASE restored", "postgres")
                if form == "plain":
                    with open(file, encoding="utf-8") as text:
                        psql(text.read(), "restored")
                else:
                    subprocess.run(["pg_restore", "-d", "restored", "--exit-on-error", file], check=True)
                sums = "SELECT count(*), md5(string_agg(n || d::text || p::text, ',' ORDER BY d)) FROM kept"
                self.assertEqual(psql(sums, "restored"), psql(sums))

    def test_binary_copy(self):
        with tempfile.TemporaryDirectory() as folder:
            file = os.path.join(folder, "rows")
            psql(f"DROP TABLE IF EXISTS a, b; CREATE TABLE a (d jdoc); INSERT INTO a VALUES ('[1]'), ('\"x\"'); CREATE TABLE b (d jdoc);"
                 f"\n\\copy a TO '{file}' WITH (FORMAT binary)\n\\copy b FROM '{file}' WITH (FORMAT binary)\n")
            self.assertEqual(psql("SELECT string_agg(d::text, ' ' ORDER BY d) FROM b"), '"x" [1]')
            with open(file, "r+b") as bytes_of:
                bytes_of.seek(31)
                bytes_of.write(b"\x7f")
            self.assertIn("ERROR", psql(f"\\copy b FROM '{file}' WITH (FORMAT binary)\n", check=False))

    def test_parallel_queries(self):
        psql("DROP TABLE IF EXISTS many; CREATE TABLE many AS SELECT ('{\"n\":' || n || '}')::jdoc AS d FROM generate_series(1, 20000) AS n")
        sets = "SET parallel_setup_cost = 0; SET parallel_tuple_cost = 0; SET min_parallel_table_scan_size = 0; SET max_parallel_workers_per_gather = 2;"
        sql = "SELECT count(*), count(DISTINCT d -> 'n') FROM many WHERE d @@ '$.n > 100'"
        self.assertIn("Parallel", psql(f"{sets} EXPLAIN SELECT count(*) FROM many WHERE d @@ '$.n > 100'"))
        self.assertEqual(psql(f"{sets} {sql}"), psql(sql))


def main():
    psql(f"DROP DATABASE IF EXISTS {DATABASE}", "postgres")
    psql(f"CREATE DATABASE {DATABASE}", "postgres")
    psql("CREATE EXTENSION jdoc")
    result = unittest.TextTestRunner(stream=sys.stdout, verbosity=0).run(unittest.defaultTestLoader.loadTestsFromModule(sys.modules[__name__]))
    for test, why in result.skipped:
        print(f"skipped: {test}: {why}")
    return 0 if result.wasSuccessful() and result.testsRun else 1


if __name__ == "__main__":
    sys.exit(main())
