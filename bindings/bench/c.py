#!/usr/bin/env python3
"""Measures the C library: calls with the path's text, with a prepared path, and as rows of a column; and loops in C without it.

  c.py [FOLDER]                    prints instructions per row, counted by callgrind, and nanoseconds of processor time per row
  c.py [FOLDER] --instructions     counts only instructions, which hardly depend on what else the machine does
  c.py [FOLDER] --write ..         writes docs/measured/c.csv, and the tables of docs/C.md and docs/PERFORMANCE.md; times that were not
                                   measured are kept

`make bench` in bindings/c builds the programs in the folder, by default bindings/c/out: bench, and with Google Benchmark bench_times,
whose times are the best of 15 repetitions. To count the instructions of a call, bench runs once on 500 rows and once on 1,500: the
difference is that of 1,000 rows, without the cost of building them. The rows of a filter are the elements of an array. loops.h in
bindings/c has the loops.
"""

import argparse
import json
import os
import re
import subprocess
import sys

HERE = os.path.dirname(os.path.abspath(__file__))
C = os.path.join(HERE, "..", "c")
sys.path.append(os.path.join(HERE, "..", "..", "tools"))
import measured

FEW, MANY, TIMED = 500, 1500, 10_000
# The calls of bench.c whose names in docs/measured/c.csv differ.
TITLES = {
    "no_condition": "`match`, `$.age`, not a predicate",
    "exists": "`exists`, `$.age`",
    "exists_last": "`exists`, `$.score`",
    "match": "`match`, `$.age < 50`",
    "to_i64": "`to_i64` of a number",
    "get": "`get_by_keypath`, `{age}`",
    "select_first": "`select_first`, `$.name`",
    "select_value": "`select_value`, `$.name`",
    "select_array": "`select_array`, `$.name`",
    "to_str": "`to_str` of a number",
    "key": "`sort_key`",
    "key_wide": "`sort_key_wide`",
    "delete": "`delete_by_keypath`, `{note}`",
}
# The paths of those whose rows are the elements of an array.
PATHS = r'^(FILTER|PREDICATE)\((\w+), "((?:[^"\\]|\\.)+)"'


def counted(bench, *words):
    """The instructions of a run."""
    command = ["valgrind", "--tool=callgrind", "--callgrind-out-file=/dev/null", bench, *map(str, words)]
    said = subprocess.run(command, capture_output=True, text=True, check=True).stderr
    return int(re.search(r"Collected : (\d+)", said)[1])


def more_rows(bench, *words):
    return (counted(bench, MANY, *words) - counted(bench, FEW, *words)) / (MANY - FEW)


def source():
    with open(os.path.join(C, "bench.c")) as file:
        return file.read()


def calls():
    """Each call of bench.c, and its forms."""
    forms = {"NAMED": ["one", "column"], "NAMED_LOOP": ["one", "column", "loop"], "BY_PATH": ["one", "prepared", "column"],
             "BY_LOOP": ["one", "prepared", "column", "loop"], "IN_ARRAY": ["prepared", "loop"]}
    return {call: forms[kind] for kind, call in re.findall(rf"^    ({'|'.join(forms)})\((\w+)\),$", source(), re.M)}


def titles():
    paths = {call: ("`match`, `" if kind == "PREDICATE" else "`") + path.replace('\\"', '"') + "`"
             for kind, call, path in re.findall(PATHS, source(), re.M)}
    return {call: TITLES.get(call) or paths.get(call, f"`{call}`") for call in calls()}


def instructions(folder):
    """The instructions of each call and form, by the columns of the file."""
    bench = os.path.join(folder, "bench")
    nothing = more_rows(bench, "nothing")
    for call, forms in calls().items():
        yield call, {f"{form}_instructions": f"{more_rows(bench, call, form) - nothing:.0f}" for form in forms}


def times(folder):
    """The nanoseconds per row of each call and form, which bench_times prints in microseconds of all its rows."""
    words = ["--benchmark_repetitions=15", "--benchmark_min_time=0.05", "--benchmark_format=json"]
    said = subprocess.run([os.path.join(folder, "bench_times"), *words], capture_output=True, text=True, check=True).stdout
    best = {}
    for run in json.loads(said)["benchmarks"]:
        if run["run_type"] == "iteration":
            best[run["run_name"]] = min(run["cpu_time"], best.get(run["run_name"], run["cpu_time"]))
    for name, took in best.items():
        call, form = name.split("/")
        yield call, {f"{form}_ns": f"{took * 1000 / TIMED:.0f}"}


def main():
    parser = argparse.ArgumentParser(description=__doc__, formatter_class=argparse.RawDescriptionHelpFormatter)
    parser.add_argument("folder", nargs="?", default=os.path.join(C, "out"))
    parser.add_argument("--instructions", action="store_true")
    parser.add_argument("--write", action="store_true")
    asked = parser.parse_args()
    rows = {row["call"]: row for row in measured.read("c")} if asked.write else {}
    found = {call: {"call": title, **rows.get(title, {})} for call, title in titles().items()}
    for name, figures in [*instructions(asked.folder), *([] if asked.instructions else times(asked.folder))]:
        found[name].update(figures)
    measured.report("c", found.values(), asked.write)


if __name__ == "__main__":
    main()
