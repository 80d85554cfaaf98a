#!/usr/bin/env python3
"""Compares the Python package with json and ujson: microseconds of processor time per document, the best of seven runs, in turn.

  PYTHONPATH=bindings/python python3 bindings/bench/python.py [ROWS]      prints the figures
  PYTHONPATH=bindings/python python3 bindings/bench/python.py --write     writes docs/measured/python.csv and the table of docs/C.md

By default there are 10,000 rows.
"""

import json
import os
import sys
import time

from documents import people
from jsonb_paths import Column, Path, check, dumps, from_json, get, loads, match, sort_key, to_json

try:
    import ujson
except ImportError:
    ujson = None

sys.path.append(os.path.join(os.path.dirname(os.path.abspath(__file__)), "..", "..", "tools"))
import measured

ROWS = 10_000


def calls(rows):
    texts = list(people(rows, "small"))
    values = [json.loads(it) for it in texts]
    documents, lines, path = list(map(from_json, texts)), "\n".join(texts).encode(), Path("$.age > 40")
    column = Column(documents)
    yield "from_json", lambda: [from_json(it) for it in texts]
    yield "to_json", lambda: [to_json(it) for it in documents]
    yield "dumps", lambda: [dumps(it) for it in values]
    yield "loads", lambda: [loads(it) for it in documents]
    yield "check", lambda: [check(it) for it in documents]
    yield "match", lambda: [match(it, "$.age > 40") for it in documents]
    yield "Path.match", lambda: [path.match(it) for it in documents]
    yield "get", lambda: [get(it, "{age}") for it in documents]
    yield "sort_key", lambda: [sort_key(it) for it in documents]
    yield "Column.match", lambda: column.match("$.age > 40")
    yield "Column.get", lambda: column.get("{age}")
    yield "Column.sort_keys", column.sort_keys
    yield "Column.from_json", lambda: Column.from_json(lines)
    yield "Column.to_json_lines", column.to_json_lines
    yield "json.loads", lambda: [json.loads(it) for it in texts]
    yield "json.dumps", lambda: [json.dumps(it) for it in values]
    if ujson:
        yield "ujson.loads", lambda: [ujson.loads(it) for it in texts]
        yield "ujson.dumps", lambda: [ujson.dumps(it) for it in values]


def seconds(call):
    start = time.process_time()
    call()
    return time.process_time() - start


def measure(rows):
    """A row for each call."""
    known = dict(calls(rows))
    best = map(min, zip(*([seconds(call) for call in known.values()] for _ in range(7))))
    return [{"call": name, "us": f"{took / rows * 1e6:.2f}"} for name, took in zip(known, best)]


def main():
    is_written = sys.argv[1:] == ["--write"]
    rows = ROWS if is_written or len(sys.argv) < 2 else int(sys.argv[1])
    measured.report("python", measure(rows), is_written)


if __name__ == "__main__":
    main()
