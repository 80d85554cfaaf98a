#!/usr/bin/env python3
"""Compares the PostgreSQL extension with jsonb: of the server, per row, microseconds of processor time, the best of some rounds in turn,
and instructions, counted by callgrind, which a busy machine hardly changes.

  postgres.py ROWS small|large [ROUNDS]     prints the figures
  postgres.py --write                       writes docs/measured/postgres.csv and the tables of pages: both sizes, and 5 rounds of small
                                            rows
  postgres.py --write --instructions        counts only instructions, which hardly depend on what else the machine does; times are kept

PGHOST, PGUSER, PGDATABASE, PGDATA and PGBIN (the folder of its programs) name a server that is stopped for the instructions;
`bindings/postgres/test.sh LIB OUT COMMAND ..` starts one for a command. The role must be allowed to read /proc/self/schedstat. JIT and
parallel queries are off, and queries that change nothing are run once before.
"""

import os
import random
import re
import subprocess
import sys

import documents

sys.path.append(os.path.join(os.path.dirname(os.path.abspath(__file__)), "..", "..", "tools"))
import measured

# The rows of each size, and how the columns of its instructions in docs/measured/postgres.csv end. Times are of small rows.
SIZES = {"small": (20_000, "instructions"), "large": (1_000, "4900")}
ROUNDS = 5
KINDS = "jdoc", "jsonb"
HOME = '$.phones[*] ? (@.type == "home" && @.number > 5000000)'
# A title, and a query over the tables jdocs and jsonbs, whose names stand for {0}, and their types for {1}.
QUERIES = [
    ("load from JSON text", "INSERT INTO {0} SELECT t::{1} FROM texts"),
    ("`d @@ '$.age > 40'`", "SELECT count(*) FROM {0} WHERE d @@ '$.age > 40'"),
    ("`(d -> 'age')::int8 > 40`", "SELECT count(*) FROM {0} WHERE (d -> 'age')::int8 > 40"),
    ("`d @@ '$.address.city == \"Oslo\"'`", "SELECT count(*) FROM {0} WHERE d @@ '$.address.city == \"Oslo\"'"),
    ("`d @? '$.phones[*] ? (.. && ..)'`", "SELECT count(*) FROM {0} WHERE d @? '" + HOME + "'"),
    ("`@>`", "SELECT count(*) FROM {0} WHERE d @> '{{\"active\":true,\"tags\":[\"vip\"]}}'"),
    ("`->>`", "SELECT sum(length(d ->> 'email')) FROM {0}"),
    ("`#>>`, two steps", "SELECT sum(length(d #>> '{{address,city}}')) FROM {0}"),
    ("`->` an object", "SELECT count(d -> 'address') FROM {0}"),
    ("path query, rows", "SELECT count(*) FROM (SELECT {1}_path_query(d, '$.phones[*].number') FROM {0}) AS x"),
    ("`||` a member", "SELECT count(d || '{{\"score\":1}}') FROM {0}"),
    ("`#-`", "SELECT count(d #- '{{address,zip}}') FROM {0}"),
    ("to text", "SELECT count(d::text) FROM {0}"),
    ("sort by a field", "SELECT count(*) FROM (SELECT 1 FROM {0} ORDER BY d -> 'score' OFFSET 0) AS x"),
    ("sort whole documents", "SELECT count(*) FROM (SELECT 1 FROM {0} ORDER BY d OFFSET 0) AS x"),
    ("group by documents, hash", "SELECT count(*) FROM (SELECT d FROM {0} GROUP BY d) AS x"),
    ("build an index on a field", "CREATE INDEX {0}_age ON {0} ((d -> 'age'))"),
    ("range by the index", "SELECT count(*) FROM {0} WHERE d -> 'age' BETWEEN '30' AND '32'"),
    ("build a GIN index", "CREATE INDEX {0}_gin ON {0} USING gin (d)"),
    ("`@>` by the GIN index", "SELECT count(*) FROM {0} WHERE d @> '{{\"age\":33,\"tags\":[\"vip\"]}}'"),
]
SETTINGS = "SET client_min_messages = warning; SET max_parallel_workers_per_gather = 0; SET jit = off; LOAD 'jdoc';"
CLOCK = "SELECT 'cpu ' || split_part(pg_read_file('/proc/self/schedstat'), ' ', 1);"


def psql(text):
    said = subprocess.run(["psql", "-XAtq", "-v", "ON_ERROR_STOP=1", "-f", "-"], input=text.encode(), stdout=subprocess.PIPE, stderr=subprocess.STDOUT)
    if said.returncode:
        raise SystemExit(said.stdout.decode())
    return said.stdout.decode()


def load(rows, size):
    """Creates the tables of a size in a schema of its own."""
    psql("CREATE EXTENSION IF NOT EXISTS jdoc;"
         f"DROP SCHEMA IF EXISTS {size} CASCADE; CREATE SCHEMA {size}; SET search_path = {size}, public; CREATE UNLOGGED TABLE texts (t text);"
         "CREATE UNLOGGED TABLE jdocs (d jdoc); CREATE UNLOGGED TABLE jsonbs (d jsonb);")
    lines = [it.replace("\\", "\\\\") for it in documents.people(rows, size)]
    random.Random(7).shuffle(lines)  # jsonb would find the documents sorted, since it compares the key `id` first
    psql(f"COPY {size}.texts FROM STDIN;\n" + "\n".join(lines) + "\n\\.\n")


def settings(title, size):
    plans = "SET enable_indexscan = off; SET enable_bitmapscan = off;" if "index" not in title else ""
    return SETTINGS + f"SET search_path = {size}, public;" + plans + ("SET enable_sort = off;" if "hash" in title else "")


def fills(sql):
    return sql.startswith(("INSERT", "CREATE"))


def nanoseconds(title, sql, kind, size):
    """The processor time of a statement, and what it returns. The server's clock is coarse, so that a short one is run a hundred times."""
    runs = 100 if "by the" in title else 1
    before = f"{sql};"
    if sql.startswith("INSERT"):
        before = f"TRUNCATE {kind}s;"
    if sql.startswith("CREATE INDEX"):
        before = f"DROP INDEX IF EXISTS {sql.split()[2]};"
    said = psql(f"{settings(title, size)} {before}\n{CLOCK}\n{CLOCK}\n" + f"{sql};\n" * runs + CLOCK)
    if fills(sql):
        psql(f"VACUUM ANALYZE {size}.{kind}s")
    first, second, third = (int(it) for it in re.findall(r"cpu (\d+)", said))
    return (third - second - (second - first)) / runs, said.rsplit("cpu", 2)[1].split("\n", 1)[1]


def times(rows, size, rounds):
    """The microseconds per row of each query. Without a round only those are run that fill the tables."""
    for title, query in QUERIES:
        best, found = {}, {}
        for _ in range(rounds or fills(query)):
            for kind in KINDS:
                took, found[kind] = nanoseconds(title, query.format(f"{kind}s", kind), kind, size)
                best[kind] = min(best.get(kind, took), took)
        if found.get("jdoc") != found.get("jsonb"):
            raise SystemExit(f"different results: {title}: {found}")
        yield {f"{kind}_us": f"{best[kind] / rows / 1e3:.2f}" for kind in KINDS} if rounds else {}


def as_server(*words):
    """Words of a command for the user that owns the server's files, which may not be root."""
    return [*([] if os.getuid() else ["runuser", "-u", os.environ["PGUSER"], "--"]), *words]


def lines_of(title, sql, table, size):
    """The statements for a query that leaves no trace."""
    before = []
    if sql.startswith("INSERT"):
        before = [f"DROP INDEX {table}_age, {table}_gin", f"TRUNCATE {table}"]
    if sql.startswith("CREATE INDEX"):
        before = [f"DROP INDEX {sql.split()[2]}"]
    return ["RESET ALL", *filter(None, re.split("; *", settings(title, size))), "BEGIN", *before, sql, "ROLLBACK"]


def instructions(lines):
    """Of each statement, in a server without clients."""
    out = os.path.join(os.environ["PGDATA"], "callgrind")
    valgrind = ["valgrind", "--tool=callgrind", "--dump-after=PortalRun", f"--callgrind-out-file={out}"]
    server = [os.path.join(os.environ["PGBIN"], "postgres"), "--single", "-D", os.environ["PGDATA"], os.environ["PGDATABASE"]]
    said = subprocess.run(as_server(*valgrind, *server), check=True, input=";\n".join(lines) + ";\n", stdout=subprocess.PIPE,
                          stderr=subprocess.STDOUT, text=True, cwd="/")
    if "ERROR" in said.stdout:
        raise SystemExit(said.stdout)
    for number in range(1, len(lines) + 1):
        with open(f"{out}.{number}") as dump:
            yield int(re.search(r"^totals: (\d+)", dump.read(), re.M)[1])
        os.remove(dump.name)


def counts(rows, size, end):
    """The instructions per row of each query when it is run for the second time."""
    found = [{} for _ in QUERIES]
    for kind in KINDS:
        lines = [2 * lines_of(title, query.format(f"{kind}s", kind), f"{kind}s", size) for title, query in QUERIES]
        of_lines = instructions(sum(lines, []))
        for it, of_query in zip(found, lines):
            it[f"{kind}_{end}"] = f"{[next(of_lines) for _ in of_query][-2] / rows:.0f}"
    return found


def stop():
    subprocess.run(as_server(os.path.join(os.environ["PGBIN"], "pg_ctl"), "-w", "stop"), check=True, stdout=subprocess.DEVNULL)


def sizes(rows, size):
    for kind in KINDS:
        sql = f"SELECT pg_table_size('{size}.{kind}s') / {rows}, (SELECT avg(pg_column_size(d))::int FROM {size}.{kind}s), pg_table_size('{size}.{kind}s_age') / 1024"
        table, average, index = psql(sql).strip().split("|")
        print(f"{size}, {kind}: {table} bytes per row of the table, {average} of a document; {index} kB of the index on a field")


def compare(asked, known):
    """A row for each query, of sizes with their rows and rounds. Figures that are not measured are those of `known`."""
    found = [{"query": title, **known.get(title, {})} for title, _ in QUERIES]
    for size, (rows, rounds, _) in asked.items():
        load(rows, size)
        for it, us in zip(found, times(rows, size, rounds)):
            it.update(us)
        sizes(rows, size)
    stop()
    for size, (rows, _, end) in asked.items():
        for it, counted in zip(found, counts(rows, size, end)):
            it.update(counted)
    return found


def main():
    words = sys.argv[1:]
    if words[:1] == ["--write"]:
        rounds = {"small": 0 if words[1:] == ["--instructions"] else ROUNDS}
        asked = {size: (rows, rounds.get(size, 0), end) for size, (rows, end) in SIZES.items()}
        measured.report("postgres", compare(asked, {row["query"]: row for row in measured.read("postgres")}), True)
        return
    size = words[1]
    measured.report("postgres", compare({size: (int(words[0]), int(words[2]) if len(words) > 2 else 3, SIZES[size][1])}, {}), False)


if __name__ == "__main__":
    main()
