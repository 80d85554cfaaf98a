#!/usr/bin/env python3
"""Compares the SQLite extension with SQLite's own JSON functions over text.

  sqlite.py EXTENSION ROWS small|large [ROUNDS]      microseconds of processor time per row, the best of several rounds, in turn
  sqlite.py EXTENSION ROWS small|large instructions  instructions per row, counted by callgrind: a busy machine changes them little
  sqlite.py EXTENSION --write                        instructions of both sizes: docs/measured/sqlite.csv and the tables of pages

EXTENSION is a path without its suffix, such as bindings/sqlite/out/jdoc.
"""

import os
import re
import sqlite3
import subprocess
import sys
import tempfile
import time

import documents

sys.path.append(os.path.join(os.path.dirname(os.path.abspath(__file__)), "..", "..", "tools"))
import measured

# The rows of each size, and how the columns of docs/measured/sqlite.csv end.
SIZES = {"small": (10_000, "298"), "large": (1_000, "4900")}
# A field as an SQL value, such as ->> returns it, and as a key that orders values of all types exactly.
VALUE = "jdoc_value(d, '{age}')"
KEY = "jdoc_key(jdoc_get(d, '{age}'))"
HOME = '$.phones[*]?(@.type == "home" && @.number > 5000000)'
# A title, a query of ours and one of SQLite's. Both return the same, except lengths of bytes.
QUERIES = [
    ("read each row", "SELECT count(*), sum(length(d)) FROM t", "SELECT count(*), sum(length(d)) FROM t"),
    ("`$.age > 40`", "SELECT count(*) FROM t WHERE jdoc_match(d, '$.age > 40')", "SELECT count(*) FROM t WHERE json_extract(d, '$.age') > 40"),
    ("the same by a value", f"SELECT count(*) FROM t WHERE {VALUE} > 40", "SELECT count(*) FROM t WHERE d ->> '$.age' > 40"),
    ("nested, `$.address.city == \"Oslo\"`", "SELECT count(*) FROM t WHERE jdoc_match(d, '$.address.city == \"Oslo\"')",
     "SELECT count(*) FROM t WHERE d ->> '$.address.city' = 'Oslo'"),
    ("a filter in an array", f"SELECT count(*) FROM t WHERE jdoc_exists(d, '{HOME}')",
     "SELECT count(*) FROM t WHERE EXISTS (SELECT 1 FROM json_each(d, '$.phones') AS p"
     " WHERE p.value ->> '$.type' = 'home' AND p.value ->> '$.number' > 5000000)"),
    ("contains", "SELECT count(*) FROM t WHERE jdoc_contains(d, '{\"active\":true,\"tags\":[\"vip\"]}')",
     "SELECT count(*) FROM t WHERE d ->> '$.active' = 1 AND EXISTS (SELECT 1 FROM json_each(d, '$.tags') AS p WHERE p.value = 'vip')"),
    ("one string", "SELECT sum(length(jdoc_value(d, '{email}'))) FROM t", "SELECT sum(length(d ->> '$.email')) FROM t"),
    ("one child", "SELECT count(jdoc_get(d, '{address}')) FROM t", "SELECT count(d -> '$.address') FROM t"),
    ("replace a field", "SELECT count(jdoc_set(d, 'score', 1)) FROM t", "SELECT count(json_set(d, '$.score', 1)) FROM t"),
    ("to JSON text", "SELECT count(jdoc_json(d)) FROM t", "SELECT count(json(d)) FROM t"),
    ("rows of an array", "SELECT count(*), sum(value) FROM t, jdoc_rows(d, '$.phones[*].number')",
     "SELECT count(*), sum(value ->> '$.number') FROM t, json_each(d, '$.phones')"),
    ("sort by a field, no index", f"SELECT sum(n) FROM (SELECT 1 AS n FROM t ORDER BY {KEY} LIMIT 1000)",
     "SELECT sum(n) FROM (SELECT 1 AS n FROM t ORDER BY d ->> '$.age' LIMIT 1000)"),
    ("build an index", f"CREATE INDEX i ON t ({VALUE})", "CREATE INDEX i ON t (d ->> '$.age')"),
    ("range by the index", f"SELECT count(*) FROM t WHERE {VALUE} BETWEEN 30 AND 32",
     "SELECT count(*) FROM t WHERE d ->> '$.age' BETWEEN 30 AND 32"),
    ("build an index of keys", f"CREATE INDEX k ON t ({KEY})", "CREATE INDEX k ON t (d ->> '$.age')"),
    ("range by the index of keys", f"SELECT count(*) FROM t WHERE {KEY} BETWEEN jdoc_key(30) AND jdoc_key(32)",
     "SELECT count(*) FROM t WHERE d ->> '$.age' BETWEEN 30 AND 32"),
    ("build an index of stored keys", "CREATE INDEX s ON stored (k)", "CREATE INDEX s ON stored (k)"),
]
# The table `stored` has what the index of keys contains, on either side, so that no function runs.
STORED = KEY, "d ->> '$.age'"
LOAD = ("load from JSON text", "INSERT INTO t SELECT jdoc(text) FROM texts", "INSERT INTO t SELECT json(text) FROM texts")


def make(folder, extension, texts):
    """Two databases, each with the JSON text and its table, and the bytes per row of each table."""
    made = {}
    for name, (_, *loads) in (("jdoc", LOAD), ("SQLite", LOAD)):
        path = os.path.join(folder, name)
        db = sqlite3.connect(path)
        db.enable_load_extension(True)
        db.load_extension(extension)
        for pragma in ("journal_mode = OFF", "synchronous = OFF", "cache_size = -400000"):
            db.execute(f"PRAGMA {pragma}")
        db.execute("CREATE TABLE texts (text)")
        db.execute("CREATE TABLE t (d)")
        db.executemany("INSERT INTO texts VALUES (?)", ((it,) for it in texts))
        db.commit()
        before = db.execute("PRAGMA page_count").fetchone()[0]
        db.execute(loads[name == "SQLite"])
        db.commit()
        pages = db.execute("PRAGMA page_count").fetchone()[0] - before
        db.execute(f"CREATE TABLE stored AS SELECT {STORED[name == 'SQLite']} AS k FROM t")
        made[name] = path, db, pages * db.execute("PRAGMA page_size").fetchone()[0] / len(texts)
    return made


def timed(db, sql):
    """The seconds of a statement, and what it returns."""
    if sql.startswith("INSERT"):
        db.execute("DELETE FROM t")
    if sql.startswith("CREATE INDEX"):
        db.execute(f"DROP INDEX IF EXISTS {sql.split()[2]}")
    begun = time.process_time()
    found = db.execute(sql).fetchall()
    db.commit()
    return time.process_time() - begun, found


def best_times(made, mine, other, rounds):
    best, found = {}, {}
    for _ in range(rounds):
        for name, sql in (("jdoc", mine), ("SQLite", other)):
            seconds, found[name] = timed(made[name][1], sql)
            best[name] = min(best.get(name, seconds), seconds)
    if found["jdoc"] != found["SQLite"] and "read each" not in mine and "length(d)" not in mine:
        raise SystemExit(f"different results: {mine}: {found}")
    return best


def shell(extension, path, sql, *before):
    """Runs a statement in the sqlite3 shell, and returns its standard error."""
    words = [*before, "sqlite3", "-cmd", f".load {extension}", path, sql]
    return subprocess.run(words, capture_output=True, text=True, check=True).stderr


def instructions(extension, path, sql):
    """The instructions of the sqlite3 shell for a statement. Only an index stays in the database."""
    said = shell(extension, path, f"BEGIN; {sql}; ROLLBACK", "valgrind", "--tool=callgrind", "--callgrind-out-file=/dev/null")
    if sql.startswith("CREATE INDEX"):
        shell(extension, path, sql)
    return int(re.search(r"Collected : (\d+)", said)[1])


def counts(extension, made, rows):
    """The instructions per row of each query, without those of starting the shell."""
    for _, db, _ in made.values():
        db.close()
    nothing = {name: instructions(extension, it[0], "SELECT 1") for name, it in made.items()}
    for title, mine, other in [LOAD] + QUERIES:
        yield title, [f"{(instructions(extension, made[name][0], sql) - nothing[name]) / rows:.0f}" for name, sql in (("jdoc", mine), ("SQLite", other))]


def times(made, rows, rounds):
    """The microseconds per row of each query."""
    for title, mine, other in [LOAD] + QUERIES:
        yield title, [f"{it / rows * 1e6:.4f}" for it in best_times(made, mine, other, rounds).values()]


def measure(extension, rows, size, how):
    """The title, our figure and that of SQLite for each query, and for the size of a row."""
    with tempfile.TemporaryDirectory() as folder:
        made = make(folder, extension, list(documents.people(rows, size)))
        yield "bytes of a row on disk", [f"{it[2]:.0f}" for it in made.values()]
        yield from counts(extension, made, rows) if how == "instructions" else times(made, rows, int(how))


def write(extension):
    found = {}
    for size, (rows, end) in SIZES.items():
        for title, figures in measure(extension, rows, size, "instructions"):
            found.setdefault(title, {"query": title}).update(zip((f"jdoc_{end}", f"sqlite_{end}"), figures))
    measured.save("sqlite", found.values())


def main():
    extension = os.path.abspath(sys.argv[1])
    if sys.argv[2:] == ["--write"]:
        return write(extension)
    rows, size, how = int(sys.argv[2]), sys.argv[3], sys.argv[4] if len(sys.argv) > 4 else "3"
    print(f"{rows} rows, {size}; SQLite {sqlite3.sqlite_version}\n\n| Query | jdoc | SQLite | ratio |\n|---|---|---|---|")
    for title, (ours, theirs) in measure(extension, rows, size, how):
        print(f"| {title} | {ours} | {theirs} | {float(ours) / float(theirs):.2f} |", flush=True)


if __name__ == "__main__":
    main()
