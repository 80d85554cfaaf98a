#!/usr/bin/env python3
"""Measures the bindings: writes docs/measured/ and the tables of README.md, docs/C.md and docs/SQL.md.

  measure.py [NAME ..]         c, sqlite, postgres, python, jq, dask, readers; all if there is no name
  measure.py --instructions    only the instructions of c, sqlite, postgres and readers, which hardly depend on the machine's other
                               work

Needs crates/jsonb_c/out/libjsonb_c.a (`rt lib` in crates/jsonb_c) and the packages of bindings/setup.sh. Builds the rest. Times are
of processors, and need an idle machine all the same.
"""

import argparse
import os
import re
import sqlite3
import subprocess
import sys
import tempfile

BENCH = os.path.dirname(os.path.abspath(__file__))
BINDINGS = os.path.dirname(BENCH)
sys.path.append(os.path.join(BINDINGS, "..", "tools"))
import measured

LIBRARY = os.path.join(BINDINGS, "c", "out")


def run(*words, **more):
    return subprocess.run(words, check=True, text=True, **more)


def script(name, *words, python=sys.executable):
    """Runs a script of this folder, with the Python package that was built in its folder."""
    run(python, os.path.join(BENCH, name), *words, env={**os.environ, "PYTHONPATH": os.path.join(BINDINGS, "python")})


def package():
    """Builds the Python package, and returns the interpreter that runs it."""
    python = run(os.path.join(BINDINGS, "python", "interpreter.sh"), stdout=subprocess.PIPE).stdout.strip()
    run("make", "-s", "-C", os.path.join(BINDINGS, "python"), f"PYTHON={python}")
    return python


def c(*how):
    run("make", "-s", "-C", os.path.join(BINDINGS, "c"), "bench")
    script("c.py", "--write", *how)


def sqlite():
    """Runs an interpreter that can load extensions, as Debian's can."""
    run("make", "-s", "-C", os.path.join(BINDINGS, "sqlite"))
    python = sys.executable if hasattr(sqlite3.Connection, "enable_load_extension") else "/usr/bin/python3"
    script("sqlite.py", os.path.join(BINDINGS, "sqlite", "out", "jdoc"), "--write", python=python)


def postgres(*how):
    with tempfile.TemporaryDirectory() as folder:
        os.chmod(folder, 0o711)  # the server runs as another user
        words = [sys.executable, os.path.join(BENCH, "postgres.py"), "--write", *how]
        run(os.path.join(BINDINGS, "postgres", "test.sh"), LIBRARY, os.path.join(folder, "server"), *words)


def python():
    script("python.py", "--write", python=package())


def jq():
    script("command.py", "--write", python=package())


def dask():
    """Runs the example of a cluster, whose lines are `2 workers, sorted: 140,000 rows per second`."""
    example = os.path.join(BINDINGS, "python", "examples", "dask_shards.py")
    said = run(package(), example, env={**os.environ, "PYTHONPATH": os.path.join(BINDINGS, "python")}, stdout=subprocess.PIPE).stdout
    rows = {}
    for workers, query, rate in re.findall(r"(\d+) workers, ([\w ]+): ([\d,]+) rows", said):
        row = rows.setdefault(workers, {"workers": workers})
        row[query.replace(" ", "_")] = rate.replace(",", "")
    measured.save("dask", rows.values())


def readers():
    run("make", "-s", "-C", os.path.join(BINDINGS, "text"))
    script("readers.py", LIBRARY, os.path.join(BINDINGS, "text", "out"), "--write")


MEASURES = {it.__name__: it for it in (c, sqlite, postgres, python, jq, dask, readers)}


def main():
    parser = argparse.ArgumentParser(description=__doc__, formatter_class=argparse.RawDescriptionHelpFormatter)
    parser.add_argument("names", nargs="*", metavar="NAME")
    parser.add_argument("--instructions", action="store_true")
    asked = parser.parse_args()
    unknown = set(asked.names) - set(MEASURES)
    if unknown:
        parser.error(f"no measurement has the name {min(unknown)}")
    run("make", "-s", "-C", os.path.join(BINDINGS, "c"))
    if asked.instructions:
        c("--instructions")
        sqlite()
        postgres("--instructions")
        readers()
        return
    for name in asked.names or MEASURES:
        MEASURES[name]()


if __name__ == "__main__":
    main()
