#!/usr/bin/env python3
"""Compares readers of JSON text: instructions per document, counted by callgrind, from JSON text to a checked document; and two ways to
visit each item of a document.

  readers.py LIB TEXT             prints the figures
  readers.py LIB TEXT --check     compares the documents that the readers build, and measures nothing
  readers.py LIB TEXT --write     writes docs/measured/readers.csv

LIB is the folder of libjdoc.a, and TEXT that of libjdoc_text.a. Needs libyajl-dev and rapidjson-dev. The difference of two runs is
that of their rows, without the cost of starting.
"""

import os
import subprocess
import sys
import tempfile

from c import counted
from documents import people

BENCH = os.path.dirname(os.path.abspath(__file__))
sys.path.append(os.path.join(BENCH, "..", "..", "tools"))
import measured

READERS = {"text": "`bindings/text`", "yajl": "yajl 2.1", "rapidjson": "RapidJSON 1.1", "builder": "yajl 2.1, `jdoc_builder_..`"}
# What visits the items of documents that the first reader builds. Its instructions are taken off.
VISITORS = {"walk": "items by `bindings/text`", "cursor": "items by `jdoc_check`, `jdoc_cursor_next`"}
# The sizes of documents, the columns of docs/measured/readers.csv, and the rows of both runs.
SIZES = {"small": ("instructions_298", 500, 1500), "large": ("instructions_4900", 50, 150)}


def build(lib, text, program):
    folders = [f"-I{os.path.join(BENCH, '..', it)}" for it in ("text", "c")]
    libraries = [os.path.join(text, "libjdoc_text.a"), os.path.join(lib, "libjdoc.a"), "-lyajl"]
    source = os.path.join(BENCH, "readers.cpp")
    subprocess.run(["c++", "-std=c++17", "-O2", "-Wall", "-Wextra", *folders, "-o", program, source, *libraries], check=True)


def write_lines(folder, size, rows):
    file = os.path.join(folder, size)
    with open(file, "w", encoding="utf-8") as out:
        out.writelines(f"{it}\n" for it in people(rows, size))
    return file


def documents(folder, program, reader, file):
    out = os.path.join(folder, reader)
    subprocess.run([program, reader, "1000000", file, out], check=True)
    with open(out, "rb") as made:
        return made.read()


def check(folder, program):
    for size, (_, _, rows) in SIZES.items():
        file = write_lines(folder, size, rows)
        for names in READERS, VISITORS:
            first, *others = (documents(folder, program, it, file) for it in names)
            if not first or any(it != first for it in others):
                raise SystemExit(f"{', '.join(names)}: different results: {size}")


def measure(folder, program):
    """A row for each reader and visitor."""
    files = {size: write_lines(folder, size, rows) for size, (_, _, rows) in SIZES.items()}
    read = {}
    for reader, title in {**READERS, **VISITORS}.items():
        row = {"reader": title}
        for size, (column, few, many) in SIZES.items():
            runs = [counted(program, reader, rows, files[size]) for rows in (few, many)]
            took = (runs[1] - runs[0]) / (many - few)
            read.setdefault(size, took)  # by the first reader
            row[column] = f"{took - (read[size] if reader in VISITORS else 0):.0f}"
        yield row


def main():
    lib, text, *how = sys.argv[1:]
    with tempfile.TemporaryDirectory() as folder:
        program = os.path.join(folder, "readers")
        build(lib, text, program)
        check(folder, program)
        if how != ["--check"]:
            measured.report("readers", list(measure(folder, program)), how == ["--write"])


if __name__ == "__main__":
    main()
