"""Random documents: what the extension returns is what SQLite's own JSON functions return of the same text."""

import json
import random
import unittest

from support import Case

DOCUMENTS = 10000
KEYS = ["a", "b", "key", "Zürich", "x y", "0", "é"]


def random_value(source, depth):
    kind = source.randrange(9 if depth else 6)
    if kind == 0:
        return source.choice([None, True, False])
    if kind <= 2:
        return source.choice([source.randrange(-1000, 1000), source.randrange(-2**63, 2**63)])
    if kind == 3:
        return source.randrange(1, 10**9) / 2**source.randrange(1, 5)
    if kind <= 5:
        return "".join(source.choice('abé"\\\n\u0001€𝄞 /') for _ in range(source.randrange(12)))
    if kind <= 7:
        return {key: random_value(source, depth - 1) for key in sorted(source.sample(KEYS, source.randrange(5)), key=str.encode)}
    return [random_value(source, depth - 1) for _ in range(source.randrange(5))]


def text_of(value):
    return json.dumps(value, ensure_ascii=False, separators=(",", ":"))


def places(value, steps=()):
    """The steps to each value within a value."""
    yield steps
    children = value.items() if isinstance(value, dict) else enumerate(value) if isinstance(value, list) else ()
    for step, child in children:
        yield from places(child, steps + (step,))


def key_path(steps):
    return "{" + ",".join(str(it) if isinstance(it, int) else f'"{it}"' for it in steps) + "}"


def json_path(steps):
    return "$" + "".join(f"[{it}]" if isinstance(it, int) else f'."{it}"' for it in steps)


class BesideJson(Case):
    def both(self, ours, theirs, values, where):
        mine, other = self.db.execute(f"SELECT {ours}, {theirs}", values).fetchone()
        self.assertEqual((type(mine), mine), (type(other), other), (values, where))

    def test_random_documents(self):
        source = random.Random(40)
        types = {"real": "decimal", "text": "string", "true": "boolean", "false": "boolean"}
        for _ in range(DOCUMENTS):
            value = random_value(source, 3)
            steps = source.choice(list(places(value)))
            missing = steps[:-1] + ("missing",)
            it = {"t": text_of(value), "k": key_path(steps), "p": json_path(steps), "mk": key_path(missing), "mp": json_path(missing)}
            self.both("jdoc_value(jdoc(:t), :k)", "json_extract(:t, :p)", it, "value")
            self.both("jdoc_value(:t, :mk)", "json_extract(:t, :mp)", it, "missing")
            self.both("jdoc_json(jdoc_get(:t, :k))", "(:t -> :p)", it, "part")
            self.both("jdoc_value(jdoc_first(:t, :p))", "json_extract(:t, :p)", it, "path")
            self.both("jdoc_exists(:t, :p)", "json_type(:t, :p) IS NOT NULL", it, "exists")
            self.both("iif(jdoc_type(jdoc_get(:t, :k)) = 'array', jdoc_length(jdoc_get(:t, :k)), 0)", "json_array_length(:t, :p)", it, "length")
            mine, other = self.db.execute("SELECT jdoc_type(jdoc_get(:t, :k)), json_type(:t, :p)", it).fetchone()
            self.assertEqual(mine, types.get(other, other), it)
            if isinstance(value, (list, dict)):
                rows = "SELECT e.key, e.value FROM {}(:t) AS e"
                self.assertEqual(self.db.execute(rows.format("jdoc_each"), it).fetchall(), self.db.execute(rows.format("json_each"), it).fetchall(), it)
            if isinstance(value, list):
                rows = "SELECT r.key, r.value FROM {}(:t, :p) AS r"
                whole = dict(it, p="$")
                theirs = self.db.execute(rows.format("json_each"), whole).fetchall()
                self.assertEqual(self.db.execute(rows.format("jdoc_rows"), dict(whole, p="$[*]")).fetchall(), theirs, it)

    def test_aggregates_and_edits(self):
        source = random.Random(41)
        self.db.execute("CREATE TABLE t (n INTEGER PRIMARY KEY, text)")
        self.db.executemany("INSERT INTO t (text) VALUES (?)", [(text_of(random_value(source, 3)),) for _ in range(1000)])
        ours = self.one("jdoc_json(jdoc_array_agg(text)) FROM (SELECT text FROM t ORDER BY n)")
        self.assertEqual(ours, self.one("json_group_array(json(text)) FROM (SELECT text FROM t ORDER BY n)"))
        sql = "SELECT jdoc_json(jdoc_set(text, 'zz', '[1]')), json_set(text, '$.zz', json('[1]')) FROM t WHERE json_type(text) = 'object'"
        for mine, theirs in self.db.execute(sql):
            self.assertEqual(json.loads(mine), json.loads(theirs))


if __name__ == "__main__":
    unittest.main()
