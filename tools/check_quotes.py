#!/usr/bin/env python3
"""Compares pages and doc comments with the files that they quote, and the tables of pages with docs/rows/ and docs/measured/.

    tools/check_quotes.py            compares; the last line is 'N passed, M failed'
    tools/check_quotes.py --write    writes the tables of example rows into pages and comments, and the rows for the tests that run them:
                                     crates/jsonb_raw/src/tests/calls/rows.rt and crates/jsonb_examples/src/tables/rows.rt

A block that quotes names its file after the language of its fence, as in ```rust crates/jsonb_examples/src/filter.rt. Its lines are
consecutive lines of that file, perhaps indented there. A table of rows follows a marker such as <!-- rows: paths: fields -->
(tools/rows.py), a table of bytes one with the JSON text of the document, such as <!-- bytes: [1] -->.
"""

import re
import sys
from pathlib import Path

import documents
import measured
import results
import rows
from rows import Problem, code

ROOT = Path(__file__).resolve().parent.parent
EXAMPLE_DOCUMENTS = ROOT / "crates/jsonb_examples/src/documents.rt"
PAGES = [ROOT / "README.md", *sorted((ROOT / "docs").glob("*.md"))]
SOURCES = sorted(ROOT.glob("crates/*/src/**/*.rt"))


def comment_lines(path):
    """The doc comments of a source file, line by line, and an empty line for each other one."""
    for line in path.read_text().splitlines():
        found = re.match(r" *///(?: (.*))?$", line)
        yield found[1] or "" if found else ""


def blocks(text):
    """The fenced blocks that name a file: line, file, lines."""
    fence, lines = None, []
    for number, line in enumerate(text, 1):
        if fence is None:
            opened = re.match(r"```\w+ (\S+)$", line)
            if opened:
                fence, lines = (number, opened[1]), []
            elif line.startswith("```"):
                fence = (number, None)
        elif line == "```":
            if fence[1]:
                yield fence[0], fence[1], lines
            fence = None
        else:
            lines.append(line)


def check_block(name, quoted):
    """The lines are in the file, all with the same further indentation."""
    lines = (ROOT / name).read_text().splitlines()
    for start in range(len(lines) - len(quoted) + 1):
        found = lines[start:start + len(quoted)]
        for indent in ("", "    ", "        "):
            if all(line == (indent + text if text else "") for line, text in zip(found, quoted)):
                return
    raise Problem(f"the block is not in {name}")


def cells(line):
    """The cells of a row of a table."""
    return [cell.strip().replace("\\|", "|") for cell in re.split(r"(?<!\\)\|", line.strip())[1:-1]]


def tables(page, marker):
    """The tables after a marker: line, its text, rows of cells."""
    lines = page.read_text().splitlines()
    for number, line in enumerate(lines):
        found = re.match(rf"<!-- {marker}: (.+) -->$", line)
        if found:
            end = number + 3
            while end < len(lines) and lines[end].startswith("|"):
                end += 1
            yield number + 1, found[1], [cells(row) for row in lines[number + 3:end]]


def keys():
    """The rows of the tables of keys, with their kinds."""
    for page in PAGES:
        for _, kind, table in tables(page, "rows"):
            yield from ((kind, row) for row in table if kind in rows.KEYS)


def row_files():
    """The files of rows that tests run, with what they have to contain."""
    return {rows.CALLS: rows.call_file, rows.PATHS: lambda: rows.path_file(keys())}


def check_rows(path, expected):
    if path.read_text() != expected:
        raise Problem(f"{path.relative_to(ROOT)} is not what --write would write")


def check_bytes(text, table):
    """The bytes of the first column are the document."""
    joined = "".join(code(row[0]) for row in table).replace(" ", "")
    if joined != documents.hexadecimal(text):
        raise Problem(f"the bytes of {text} are {documents.hexadecimal(text)}")


def constants():
    """The documents of the examples: the JSON text above each, and its bytes."""
    text = EXAMPLE_DOCUMENTS.read_text()
    for found in re.finditer(r'/// `(.*)`\npub const (\w+): &\[u8\] =\s*b"((?:[^"\\]|\\.|\\\n)*)";', text):
        yield found[2], found[1], bytes_of(re.sub(r"\\\n\s*", "", found[3]))


def bytes_of(literal):
    """The bytes of a byte string's text."""
    units = re.findall(r'\\x([0-9a-f]{2})|\\(0)|\\?(.)', literal)
    return b"".join(bytes([int(x, 16)]) if x else b"\0" if zero else char.encode() for x, zero, char in units)


def check_constant(text, bytes_):
    if documents.encode(documents.read(text)) != bytes_:
        raise Problem(f"the document of {text} is {documents.hexadecimal(text)}")


def check_measured(page):
    """The tables of a page are those of docs/measured/."""
    if (ROOT / page).read_text() != measured.with_tables(page):
        raise Problem("its tables are not those of docs/measured/: tools/measured.py --write")


def checks():
    """What is compared: a name, and the call that compares it."""
    for page in measured.PAGES:
        yield page, lambda page=page: check_measured(page)
    for page in PAGES:
        name = page.relative_to(ROOT)
        for number, file, lines in blocks(page.read_text().splitlines()):
            yield f"{name}:{number}", lambda file=file, lines=lines: check_block(file, lines)
        for number, text, table in tables(page, "bytes"):
            yield f"{name}:{number}", lambda text=text, table=table: check_bytes(text, table)
        if "<!-- rows: " in page.read_text():
            yield name, lambda page=page: check_rows(page, rows.with_tables(page))
    for path in SOURCES:
        if "<!-- rows: " in path.read_text():
            yield path.relative_to(ROOT), lambda path=path: check_rows(path, rows.with_tables(path))
        for number, file, lines in blocks(comment_lines(path)):
            yield f"{path.relative_to(ROOT)}:{number}", lambda file=file, lines=lines: check_block(file, lines)
    for name, text, bytes_ in constants():
        yield f"{EXAMPLE_DOCUMENTS.name}: {name}", lambda text=text, bytes_=bytes_: check_constant(text, bytes_)
    for path, made in row_files().items():
        yield path.relative_to(ROOT), lambda path=path, made=made: check_rows(path, made())


def fault_of(name, check):
    """Returns what is wrong in a place, or an empty text."""
    try:
        check()
    except (Problem, OSError, ValueError) as problem:
        return f"{name}: {problem}"
    return ""


def main(arguments):
    if arguments == ["--write"]:
        for path in [*PAGES, *SOURCES]:
            text = path.read_text()
            if rows.with_tables(path) != text:
                path.write_text(rows.with_tables(path))
        for path, made in row_files().items():
            path.write_text(made())
        return 0
    if arguments:
        print(__doc__, end="")
        return 2
    return results.report(fault_of(*it) for it in checks())


if __name__ == "__main__":
    sys.exit(main(sys.argv[1:]))
