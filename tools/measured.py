#!/usr/bin/env python3
"""The figures in docs/measured/, and the tables that pages show of them.

    tools/measured.py --write    writes the tables of the pages again, without measuring

tools/measure_speed.py, measure_growth.py, measure_stack.py, gate_times.py, verdict.py and bindings/bench/measure.py write the figures.
tools/check_quotes.py compares the tables.
"""
import csv
import datetime
import io
import math
import os
import re
import statistics
import sys
import tomllib

TOP = os.path.dirname(os.path.dirname(os.path.abspath(__file__)))
FIGURES = os.path.join(TOP, "docs", "measured")

# The columns of each file of figures. A column of growth.csv is a size, here or in the Rust crate; a cell is empty if its call was not
# measured.
SIZES = [1, 2, 4, 8, 10, 100, 1_000, 10_000, 100_000, 200_000]
COLUMNS = {
    "speed": ["class", "case", "rust_instructions", "this_instructions", "rust_ns", "this_ns", "result_copy_ns", "rust_allocations",
              "this_allocations"],
    "alone": ["type", "call", "document", "instructions", "allocations"],
    "growth": ["unit", "call", *(f"{side}{it}" for side in ("", "rust_") for it in [*SIZES, "exponent", "25_to_100_kb"])],
    "check": ["document", "check_ns", "copy_ns", "bytes"],
    "stack": ["call", "shape", "kib_10000", "kib_100000"],
    "stack_more": ["call", "shape", "kib_10000", "kib_100000"],
    "c": ["call", "one_instructions", "prepared_instructions", "column_instructions", "loop_instructions", "one_ns", "prepared_ns",
          "column_ns", "loop_ns"],
    "sqlite": ["query", "jdoc_298", "sqlite_298", "jdoc_4900", "sqlite_4900"],
    "postgres": ["query", "jdoc_us", "jsonb_us", "jdoc_instructions", "jsonb_instructions", "jdoc_4900", "jsonb_4900"],
    "python": ["call", "us"],
    "jq": ["jdoc", "jq", "jdoc_seconds", "jq_seconds"],
    "dask": ["workers", "counts", "rows_back", "sorted", "groups"],
    "readers": ["reader", "instructions_298", "instructions_4900"],
    "verdict": ["crate", "functions", "seconds", "processors", "day"],
    "gate": ["step", "minutes"],
    # When each file was written, and what to say of that if it was before the code that it is to measure.
    "dates": ["figures", "day", "note"],
}

# The classes of the cases of speed.csv.
CLASSES = ["scalar calls", "up to 60 bytes", "up to 1,000 bytes", "above 1,000 bytes"]
# The cases that README.md shows, and those that docs/PERFORMANCE.md shows.
README_CASES = ["get the last of 1,000 keys", "`$[*]?(@.age < 50)` of 1,000 objects", "contains 1,000 integers",
                "sortable key of 1,000 objects", "sortable key of long strings"]
MORE_CASES = ["parse a long path", "get at depth 200", "delete by key path, of 1,000 keys", "`$[*].name` of 1,000 objects",
              "intersection of 1,000", "concatenate objects", "strip nulls of 1,000 objects", "leaves of 100 objects",
              "a filter on one document of 200 bytes"]
# The rows of c.csv, sqlite.csv and postgres.csv that docs/C.md and docs/SQL.md show. docs/SQL.md also shows each slow query: one
# that takes at least this part of what the other side's takes.
SLOW = 0.95
C_CALLS = ["`match`, `$.age < 50`", "`get_by_keypath`, `{age}`", "`select_first`, `$.name`", "`delete_by_keypath`, `{note}`"]
SQLITE_QUERIES = ["load from JSON text", "read each row", "`$.age > 40`", "a filter in an array", "to JSON text", "build an index",
                  "range by the index", "build an index of keys"]
POSTGRES_QUERIES = ["load from JSON text", "`d @@ '$.age > 40'`", "`@>`", "`->>`", "path query, rows", "sort whole documents",
                    "build a GIN index", "`@>` by the GIN index"]
# What README.md compares, by program: a title and a row of its figures, and how many documents it reckons with.
COMPARED = {
    "SQLite": [("`$.age > 40`", "`$.age > 40`"), ("a filter in an array", "a filter in an array"), ("load", "load from JSON text")],
    "PostgreSQL": [("`$.age > 40`", "`d @@ '$.age > 40'`"), ("`@>`", "`@>`"), ("sort by a field", "sort by a field")],
    "jq": ["`filter '$.age > 40'`", "`set '{active}' true`"],
    "ujson": [("read", "from_json", "ujson.loads"), ("write", "to_json", "ujson.dumps")],
}
QUERIED = 100_000
# An exponent up to this one counts as linear: sorting, and hashing with it, adds a logarithm.
LINEAR = 1.2


def read(name):
    with open(os.path.join(FIGURES, f"{name}.csv"), newline="") as file:
        return list(csv.DictReader(file))


def as_csv(name, rows):
    text = io.StringIO()
    writer = csv.DictWriter(text, COLUMNS[name], lineterminator="\n")
    writer.writeheader()
    writer.writerows(rows)
    return text.getvalue()


def write(name, rows):
    text = as_csv(name, rows)
    with open(os.path.join(FIGURES, f"{name}.csv"), "w") as file:
        file.write(text)


def save(name, rows):
    """Writes a file of figures and its date, and the pages that show it."""
    write(name, rows)
    others = [row for row in read("dates") if row["figures"] != name]
    today = {"figures": name, "day": datetime.date.today().isoformat(), "note": ""}
    write("dates", sorted([*others, today], key=lambda row: row["figures"]))
    write_pages()


def measured_on(names):
    """Returns the sentence that says when these figures were measured, or an empty text if they were not."""
    dates = [row for row in read("dates") if row["figures"] in names]
    days = sorted({row["day"] for row in dates})
    when = f"on {days[0]}" if len(days) == 1 else f"from {days[0]} to {days[-1]}" if days else ""
    notes = "".join(dict.fromkeys(f", {row['note']}" for row in dates if row["note"]))
    return f"Measured {when}{notes}." if days else ""


def dated(made, *names):
    """Returns what makes a table of figures, with the date of these files of figures below."""
    return lambda: "\n\n".join(filter(None, [made(), measured_on(names)]))


def report(name, rows, is_written):
    """Writes a file of figures, or prints it."""
    save(name, rows) if is_written else print(as_csv(name, rows), end="")


# ---- tables


def table(heads, rows):
    line = lambda cells: "| " + " | ".join(cell.replace("|", "\\|") for cell in cells) + " |"
    return "\n".join([line(heads), "|" + "---|" * len(heads), *map(line, rows)])


def time(nanoseconds):
    value = float(nanoseconds)
    return f"{value:,.0f} ns" if value < 10_000 else f"{value / 1000:,.0f} us"


def ratio(row):
    """Of the instructions."""
    return max(1, float(row["this_instructions"])) / float(row["rust_instructions"])


def mean_ratio(rows):
    return statistics.geometric_mean(map(ratio, rows))


def above_one(rows):
    """The cases that take more instructions than in the Rust crate, the worst first."""
    return sorted((row for row in rows if ratio(row) > 1), key=ratio, reverse=True)


def by_class(rows):
    found = {name: [row for row in rows if row["class"] == name] for name in CLASSES}
    return {name: rows for name, rows in found.items() if rows}


def speed_report(rows):
    """What tools/measure_speed.py prints after the figures."""
    lines = []
    for name, cases in by_class(rows).items():
        above = above_one(cases)
        lines.append(f"{name}: geometric mean {mean_ratio(cases):.2f} of {len(cases):,} cases, above 1: {len(above)}")
        lines += [f"  {ratio(row):5.2f}  {row['case']}" for row in above]
    return "\n".join(lines)


def speed(names):
    rows = {row["case"]: row for row in read("speed")}
    cells = [[name, time(rows[name]["rust_ns"]), time(rows[name]["this_ns"]), f"{ratio(rows[name]):.2f}"] for name in names]
    return table(["Case", "Rust crate", "This crate", "Instruction ratio"], cells)


def classes():
    rows = []
    for name, cases in by_class(read("speed")).items():
        above = f"{len(above_one(cases))} of {len(cases):,}"
        rows.append([name, f"{mean_ratio(cases):.2f}", f"{max(map(ratio, cases)):.2f}", above])
    return table(["Class", "Geometric mean", "Greatest", "Above 1"], rows)


def means():
    rows = read("speed")
    shown = [f"{name} {mean_ratio(cases):.2f}" for name, cases in by_class(rows).items()]
    worst = max(rows, key=ratio)
    return f"Geometric means of the instruction ratios: {', '.join(shown)}. Greatest: {ratio(worst):.2f} ({worst['case']})."


def slower():
    rows = [[row["class"], row["case"], row["rust_instructions"], row["this_instructions"], f"{ratio(row):.2f}"]
            for cases in by_class(read("speed")).values() for row in above_one(cases)]
    return table(["Class", "Case", "Rust crate", "This crate", "Ratio"], rows)


# The documents of alone.csv that have a column of their own in its table.
ALONE_COLUMNS = ["`[]`", "8 integers", "32 integers", "1,000 integers", "1,000 strings", "1,000 decimals", "1,000 objects", "`{}`", "3 members",
                 "12 members", "1,000 members"]


def alone():
    """Every call: a mean of the scalars, and some arrays and objects; then the calls on paths and numbers."""
    if not os.path.exists(os.path.join(FIGURES, "alone.csv")):
        return "`tools/measure_speed.py --alone --write` has not been run yet."
    of, scalars, others = {}, {}, []
    for row in read("alone"):
        cost = int(row["instructions"])
        if row["type"] == "scalar":
            scalars.setdefault(row["call"], []).append(cost)
        elif row["document"] in ALONE_COLUMNS:
            of.setdefault(row["call"], {})[row["document"]] = cost
        elif row["type"] in ("text", "number"):
            others.append([row["call"], row["document"], f"{cost:,}"])
    mean = lambda call: f"{statistics.mean(scalars[call]):,.0f}" if call in scalars else ""
    cost_of = lambda call, what: f"{of[call][what]:,}" if what in of.get(call, {}) else ""
    cells = [[call, mean(call), *(cost_of(call, it) for it in ALONE_COLUMNS)] for call in dict.fromkeys([*scalars, *of])]
    return table(["Call", "Scalars, mean", *ALONE_COLUMNS], cells) + "\n\n" + table(["Call", "Of", "Instructions"], others)


def per_unit(row, size):
    """Instructions for each unit, which are those of the whole call where the unit is a nesting."""
    cost = row[str(size)]
    if not cost:
        return ""
    value = float(cost)
    return f"{value:,.0f}" if value >= 10 else f"{value:.1f}"


def growth():
    """The series that are not linear, with their exponents from 25 to 100 KB and of the last two sizes, and those of the Rust crate."""
    rows = read("growth")
    exponents = ["25_to_100_kb", "rust_25_to_100_kb", "exponent", "rust_exponent"]
    not_linear = [row for row in rows if any(float(row[it] or 0) > LINEAR for it in ("25_to_100_kb", "exponent"))]
    shown = [100, 1_000, 10_000, 100_000]
    cells = [[row["call"], *(per_unit(row, size) for size in shown), *(row[it] for it in exponents)] for row in not_linear if row["100"]]
    head = ["Call", *(f"n = {size:,}" for size in shown), "From 25 to 100 KB", "Rust crate", "Last two", "Rust crate"]
    return table(head, cells) + f"\n\nLinear (an exponent of at most {LINEAR}): {len(rows) - len(not_linear)} of {len(rows)} series."


def check():
    rate = lambda row, column: f"{float(row['bytes']) / float(row[column]):.2f}"
    rows = [[row["document"], rate(row, "check_ns"), rate(row, "copy_ns")] for row in read("check")]
    return table(["Document", "`check`, bytes per ns", "`memcpy`, bytes per ns"], rows)


def kibibytes(row):
    return [math.inf if row[it] == "over 1 GiB" else int(row[it]) for it in ("kib_10000", "kib_100000")]


def stack(name):
    """A row for each greatest stack, with the calls that need it on some shape, and no more on any."""
    greatest = {}
    for row in read(name):
        greatest[row["call"]] = max(greatest.get(row["call"], 0), *kibibytes(row))
    groups = {}
    for call, most in greatest.items():
        groups.setdefault(most, []).append(call)
    show = lambda most: "over 1 GiB" if math.isinf(most) else f"{most} KiB"
    return table(["Stack", "Calls"], [[show(most), ", ".join(groups[most])] for most in sorted(groups)])


def by(name, column):
    return {row[column]: row for row in read(name)}


def quotient(ours, theirs):
    return f"{float(ours) / float(theirs):.2f}"


def compared():
    """What 100,000 documents cost here and in other programs."""
    sqlite, postgres, jq, python = by("sqlite", "query"), by("postgres", "query"), by("jq", "jdoc"), by("python", "call")
    rows = []
    for title, query in COMPARED["SQLite"]:
        ours, theirs = (float(sqlite[query][it]) * QUERIED / 1e6 for it in ("jdoc_298", "sqlite_298"))
        rows.append([f"SQLite 3.40, text: {title}", f"{ours:,.0f} million instructions", f"{theirs:,.0f} million", quotient(ours, theirs)])
    for title, query in COMPARED["PostgreSQL"]:
        ours, theirs = (float(postgres[query][it]) * QUERIED / 1e3 for it in ("jdoc_us", "jsonb_us"))
        rows.append([f"PostgreSQL 15, `jsonb`: {title}", f"{ours:,.0f} ms", f"{theirs:,.0f} ms", quotient(ours, theirs)])
    for command in COMPARED["jq"]:
        ours, theirs = jq[command]["jdoc_seconds"], jq[command]["jq_seconds"]
        rows.append([f"jq 1.6: {command}", f"{ours} s", f"{theirs} s", quotient(ours, theirs)])
    for title, *calls in COMPARED["ujson"]:
        ours, theirs = (float(python[it]["us"]) * QUERIED / 1e6 for it in calls)
        rows.append([f"ujson: {title}", f"{ours:.2f} s", f"{theirs:.2f} s", quotient(ours, theirs)])
    return table(["Compared with", "This library", "The other", "Ratio"], rows)


def c():
    rows = by("c", "call")
    cells = [[name, *(f"{int(rows[name][f'{form}_instructions']):,}" for form in ("one", "prepared", "column"))] for name in C_CALLS]
    match, check = rows["`match`, `$.age < 50`"], rows["`check`"]
    return (table(["Call", "With the path's text", "Prepared", "Row of a column"], cells)
            + f"\n\nIn nanoseconds, `match` takes {match['one_ns']}, in a column {match['column_ns']}, and `check` {check['one_ns']}.")


def loops():
    """The calls compared with loops in C. Those on elements of an array have no column."""
    cells = []
    for row in read("c"):
        if row["loop_instructions"]:
            ours, loop = (int(row[it]) for it in ("column_instructions" if row["column_instructions"] else "prepared_instructions",
                                                  "loop_instructions"))
            cells.append([row["call"], f"{ours:,}", f"{loop:,}", quotient(ours, loop)])
    return table(["Call", "This library", "Loop in C", "Ratio"], cells)


def shown(rows, queries, *ratios):
    """The rows with these queries, and those with a slow one. A ratio is the columns of both sides."""
    is_slow = lambda row: any(float(row[ours]) >= SLOW * float(row[theirs]) for ours, theirs in ratios)
    return [row for row in rows if row["query"] in queries or is_slow(row)]


def sqlite():
    disk, *rows = read("sqlite")
    small, large = ["jdoc_298", "sqlite_298"], ["jdoc_4900", "sqlite_4900"]
    cells = []
    for row in shown(rows, SQLITE_QUERIES, small, large):
        both = ", ".join(f"{int(row[it]):,}" for it in small)
        cells.append([row["query"], both, *(quotient(*(row[it] for it in size)) for size in (small, large))])
    return (table(["SQLite", "298 bytes: jdoc, SQLite", "Ratio", "Ratio, 4.9 KB"], cells)
            + f"\n\nA row takes {disk['jdoc_298']} bytes on disk, and {disk['sqlite_298']} as text.")


def postgres():
    ratios = ["jdoc_instructions", "jsonb_instructions"], ["jdoc_4900", "jsonb_4900"], ["jdoc_us", "jsonb_us"]
    cells = []
    for row in shown(read("postgres"), POSTGRES_QUERIES, *ratios):
        both = ", ".join(f"{int(row[it]):,}" for it in ratios[0])
        cells.append([row["query"], both, *(quotient(*(row[it] for it in columns)) for columns in ratios)])
    return table(["PostgreSQL 15.20", "jdoc, jsonb", "Ratio", "4.9 KB", "Time"], cells)


def python():
    us = {row["call"]: row["us"] for row in read("python")}
    return (f"`dumps` takes {us['dumps']}, `loads` {us['loads']}. One by one and in a column, `match` of `$.age > 40` takes {us['match']} and"
            f"\n{us['Column.match']}, `get` of `{{age}}` {us['get']} and {us['Column.get']}, `sort_key` {us['sort_key']} and {us['Column.sort_keys']}.")


def verdict():
    if not os.path.exists(os.path.join(FIGURES, "verdict.csv")):
        return "`tools/verdict.py` has not been run yet."
    rows = read("verdict")
    functions, minutes = sum(int(it["functions"]) for it in rows), max(int(it["seconds"]) for it in rows) / 60
    with open(os.path.join(TOP, "crates.txt")) as lines:
        every = {re.match(r"\w+", it)[0] for it in lines if it[0].isalpha()}
    crates = "all crates" if {it["crate"] for it in rows} == every else ", ".join(f"`{it['crate']}`" for it in rows)
    how_long = f"{minutes:.0f} minutes on {rows[0]['processors']} processors"
    return f"`tools/verdict.py` passed on {rows[0]['day']}, in {how_long}: {functions:,} functions of {crates}."


BINDINGS = "bindings/test.sh"
# The steps of a whole gate are named `all crates on 4 processors`.
WHOLE = "all crates"


def gate():
    """The whole gate, the steps that take longest, and the tests of bindings/."""
    minutes = {row["step"]: float(row["minutes"]) for row in read("gate")}
    tests = f" {BINDINGS}: {minutes.pop(BINDINGS):.0f}." if BINDINGS in minutes else ""
    proofs = [it for it in minutes if " " not in it]
    longest = sorted(proofs, key=minutes.get, reverse=True)[:5]
    places = sorted((int(it.split()[3]), it) for it in minutes if it.startswith(WHOLE))
    whole = " and ".join(f"{minutes[it]:.0f} on {processors} processors" for processors, it in places)
    return (f"Minutes of the gate from scratch: {whole}. " if whole else "") + (
        f"Minutes of proofs from scratch, on four busy cores: {', '.join(f'{it} {minutes[it]:.0f}' for it in longest)}.{tests}")


def counts():
    """The sums of what tools/check_counts.py counts of all crates and bindings."""
    with open(os.path.join(TOP, "tools", "counts.toml"), "rb") as it:
        numbers = tomllib.load(it)["counts"].items()
    mutants, tests, rows = (sum(n for name, n in numbers if name.startswith(f"{it} of ")) for it in ("mutants", "tests", "rows"))
    return f"Counted by the gate: {mutants:,} mutants, {tests:,} tests, {rows:,} rows."


# The tables of each page, by the marks around them.
PAGES = {
    "README.md": {
        "speed": dated(lambda: f"{speed(README_CASES)}\n\n{means()}", "speed"),
        "compared": dated(compared, "sqlite", "postgres", "jq", "python"),
        "counts": counts,
        "verdict": verdict,
    },
    "docs/HACKING.md": {"gate": dated(gate, "gate")},
    "docs/C.md": {"c": dated(c, "c"), "python": dated(python, "python")},
    "docs/SQL.md": {"sqlite": dated(sqlite, "sqlite"), "postgres": dated(postgres, "postgres")},
    "docs/PERFORMANCE.md": {
        "classes": dated(classes, "speed"),
        "speed": lambda: speed(MORE_CASES),
        "loops": dated(loops, "c"),
        "growth": dated(growth, "growth"),
        "check": dated(check, "check"),
    },
    "docs/measured/slower.md": {"slower": dated(slower, "speed")},
    "docs/measured/alone.md": {"alone": dated(alone, "alone")},
    "docs/STACK.md": {"stack": dated(lambda: stack("stack"), "stack"), "stack, more": dated(lambda: stack("stack_more"), "stack_more")},
}


def with_tables(page):
    """The text of a page with its tables as the figures have them."""
    text = open(os.path.join(TOP, page)).read()
    for mark, made in PAGES[page].items():
        before, rest = text.split(f"<!-- measured: {mark} -->\n")
        text = f"{before}<!-- measured: {mark} -->\n\n{made()}\n\n<!-- end -->{rest.split('<!-- end -->', 1)[1]}"
    return text


def write_pages():
    for page in PAGES:
        text = with_tables(page)
        with open(os.path.join(TOP, page), "w") as file:
            file.write(text)


if __name__ == "__main__":
    if sys.argv[1:] != ["--write"]:
        sys.exit(__doc__)
    write_pages()
