#!/usr/bin/env python3
"""Measures how the cost of each call grows with its document or path, and how fast `check` is.

  measure_growth.py [--only WORD]   prints the figures
  measure_growth.py --write         writes docs/measured/growth.csv and check.csv, and the tables of docs/PERFORMANCE.md
  measure_growth.py --times ..      takes times (best of five) instead of counting instructions
  measure_growth.py --crate FOLDER  uses the Rust crate in a folder, as measure_speed.py does

Needs `rt`, `cargo` and `cc`, and `valgrind` with its headers to count instructions; otherwise it takes times. Proves the crates first
if necessary. Works in tools/speed/out and leaves the repository unchanged. A series ends if its next call would take longer than a
tenth of a second.
"""
import argparse
import contextlib
import hashlib
import math
import os
import random
import re
import resource
import shutil
import subprocess
import sys
from collections.abc import Callable, Iterable, Iterator
from dataclasses import dataclass

sys.dont_write_bytecode = True
TOP = os.path.dirname(os.path.dirname(os.path.abspath(__file__)))
sys.path.insert(0, os.path.join(TOP, "tools"))
import measure_speed
import measured
from documents import encode as document
from measure_speed import HERE, OUT
from nested import nested

SIZES = [100, 1_000, 10_000, 100_000]
# The last two are documents of 0.8 to 1.3 MB and of twice as much.
DEPTHS = [10, 100, 1_000, 10_000, 100_000, 200_000]
NESTINGS = [1, 2, 4, 8]
# The bytes of two more documents of arrays and objects.
BYTES = [25_000, 100_000]
# How long a call may take, in nanoseconds, and a series of the Rust crate, in seconds.
LIMIT = 100_000_000
PATIENCE = 120
# The calls that the Rust crate lacks.
ALONE = {"check", "depth", "to_value", "value_clone", "value_equal", "equality_key", "sort_key_wide", "path_to_owned", "memcpy"}
STACK = 1 << 30


@dataclass(frozen=True)
class Made:
    """What a call is made with."""

    document: bytes
    argument: bytes = b""
    other: bytes = b""


@dataclass(frozen=True)
class Series:
    """A call at each of some sizes."""

    name: str
    call: str
    make: Callable[[int], Made]
    sizes: list[int]


# ---- documents and inputs


def numbers(count: int, first: int = 0) -> bytes:
    return document([first + i for i in range(count)])


def alike(count: int, first: int = 0) -> bytes:
    """Numbers at indices below 2^22, which have one hash: the factor is the inverse of 5^9 times that of hashes, modulo 2^55."""
    indices = (divmod(first + i, 2**13) for i in range(count))
    return document([21_818_951_638_662_393 * low % 2**55 + high * 2**55 for high, low in indices])


def strings(count: int) -> bytes:
    return document([f"k{i:06}" for i in range(count)])


def order(count: int) -> list[int]:
    """The numbers below a count in no order."""
    return random.Random(count).sample(range(count), count)


def shuffled(count: int) -> bytes:
    return document(order(count))


def wide(count: int, first: int = 0) -> bytes:
    return document({f"k{first + i:06}": i for i in range(count)})


def people(count: int) -> bytes:
    return document([{"age": i % 100, "id": i, "name": f"n{i % 100}", "opt": None} for i in range(count)])


def boxes(places: Iterable[int]) -> bytes:
    return document([{"a": i, "b": [i, i + 1]} for i in places])


def names(places: range) -> bytes:
    return ",".join(f"k{i:06}" for i in places).encode()


# ---- series


def of_arrays() -> Iterator[Series]:
    def of(name: str, call: str, make: Callable[[int], Made]) -> Series:
        return Series(name, call, make, SIZES)

    for call in ("check", "depth", "to_value", "equality_key", "sort_key", "strip_nulls", "leaves", "array_values", "array_distinct"):
        yield of(f"`{call}`", call, lambda n: Made(numbers(n)))
    yield of("`get_by_index`, the last", "get_by_index", lambda n: Made(numbers(n), str(n - 1).encode()))
    yield of("`delete_by_index`, in the middle", "delete_by_index", lambda n: Made(numbers(n), str(n // 2).encode()))
    yield of("`array_insert`, in the middle", "array_insert", lambda n: Made(numbers(n), str(n // 2).encode(), document(7)))
    yield of("`concat` of two", "concat", lambda n: Made(numbers(n), other=numbers(n)))
    yield of("`array_intersection`", "array_intersection", lambda n: Made(numbers(n), other=shuffled(n)))
    yield of("`array_except`", "array_except", lambda n: Made(numbers(n), other=shuffled(n)))
    for call in ("contains", "contains_in"):
        yield of(f"`{call}`, same order", call, lambda n: Made(numbers(n), other=numbers(n)))
        yield of(f"`{call}`, shuffled", call, lambda n: Made(numbers(n), other=shuffled(n)))
        yield of(f"`{call}`, objects in the same order", call, lambda n: Made(boxes(range(n)), other=boxes(range(n))))
        yield of(f"`{call}`, shuffled objects", call, lambda n: Made(boxes(range(n)), other=boxes(order(n))))
    for call in ("array_overlap", "array_overlap_in"):
        yield of(f"`{call}`, disjoint", call, lambda n: Made(numbers(n), other=numbers(n, n)))
    yield of("`array_overlap_in`, disjoint, of one hash", "array_overlap_in", lambda n: Made(alike(n), other=alike(n, n)))
    for call in ("exists_all_keys", "exists_all_keys_in"):
        yield of(f"`{call}`, n names in reverse order, of an array", call, lambda n: Made(strings(n), names(range(n - 1, -1, -1))))


def of_objects() -> Iterator[Series]:
    def of(name: str, call: str, make: Callable[[int], Made]) -> Series:
        return Series(name, call, make, SIZES)

    for call in ("check", "depth", "traverse_check_string", "to_value", "equality_key", "sort_key", "strip_nulls", "leaves"):
        yield of(f"`{call}`", call, lambda n: Made(wide(n)))
    for call in ("object_keys", "object_each"):
        yield of(f"`{call}`", call, lambda n: Made(wide(n)))
    for call in ("get_by_name", "delete_by_name"):
        yield of(f"`{call}`, the last", call, lambda n: Made(wide(n), f"k{n - 1:06}".encode()))
    yield of("`get_by_name_ignore_case`, the last", "get_by_name_ignore_case", lambda n: Made(wide(n), f"K{n - 1:06}".encode()))
    yield of("`object_insert`, in the middle", "object_insert", lambda n: Made(wide(n), f"k{n // 2:06}x".encode(), document(7)))
    yield of("`delete_by_keypath`", "delete_by_keypath", lambda n: Made(wide(n), b"{" + names(range(n - 1, n)) + b"}"))
    yield of("`exists_all_keys`, n sorted names", "exists_all_keys", lambda n: Made(wide(n), names(range(n))))
    for call in ("exists_all_keys", "exists_all_keys_in"):
        yield of(f"`{call}`, n names in reverse order", call, lambda n: Made(wide(n), names(range(n - 1, -1, -1))))
    yield of("`exists_any_keys`, n missing names", "exists_any_keys", lambda n: Made(wide(n), names(range(n, 2 * n))))
    yield of("`object_pick`, n names", "object_pick", lambda n: Made(wide(n), names(range(n))))
    yield of("`object_delete`, n / 2 names", "object_delete", lambda n: Made(wide(n), names(range(0, n, 2))))
    yield of("`concat` of two", "concat", lambda n: Made(wide(n), other=wide(n, n // 2)))
    yield of("`contains`", "contains", lambda n: Made(wide(n), other=wide(n)))


def of_selections() -> Iterator[Series]:
    def of(path: str, make: Callable[[int], bytes], call: str = "select") -> Series:
        return Series(f"`{path}`", call, lambda n: Made(make(n), path.encode()), SIZES)

    for path in ("$[*].name", "$[*]?(@.age < 50)", "$[last]", "$[1 to last]", "$.**", "$[*]?(@.id == $[0].id)"):
        yield of(path, people)
    yield of("$.*", wide)
    yield of("-$[*]", numbers)
    yield of("$[*]", people, "select_first")
    yield of("$[*].age > 1000", people, "match")
    yield of("$[*]?(@ == $[*])", numbers)


def of_texts() -> Iterator[Series]:
    def of(name: str, call: str, make: Callable[[int], str], value: bytes | None = None) -> Series:
        def made(n: int) -> Made:
            return Made(make(n).encode()) if value is None else Made(value, make(n).encode())

        return Series(name, call, made, SIZES)

    def fields(n: int) -> str:
        return "$" + ".k" * n

    def conditions(n: int) -> str:
        return "$[*]?(" + "&&".join(["@>0"] * n) + ")"

    def parentheses(n: int) -> str:
        return "$?" + "(" * n + "@==1" + ")" * n

    texts = [("n fields", fields), ("n conditions", conditions), ("n parentheses", parentheses)]
    for name, text in texts:
        yield of(f"parse a path of {name}", "parse_path", text)
    yield of("parse a key path of n steps", "parse_keypath", lambda n: "{" + ",".join(["k"] * n) + "}")
    for call, what in (("path_clone", "clone"), ("path_to_owned", "own"), ("path_equal", "compare"), ("path_print", "print")):
        yield of(f"parse and {what} a path of n fields", call, fields)
        yield of(f"parse and {what} a path of n conditions", call, conditions)
    yield of("parse, and evaluate on two elements: n conditions", "exists", conditions, document([0, 1]))


def of_depth() -> Iterator[Series]:
    """Each level is an array of one element, or an object of one pair."""
    calls = ["check", "depth", "traverse_check_string", "to_value", "value_clone", "value_equal", "equality_key"]
    for name, shape in (("arrays", "only"), ("objects", "pair")):
        for call in [*calls, "strip_nulls", "leaves"]:
            yield Series(f"`{call}`, {name}", call, lambda n, s=shape: Made(nested(s, n)), DEPTHS)
        wide_key = [n for n in DEPTHS if n < 65_535]
        yield Series(f"`sort_key_wide`, {name}", "sort_key_wide", lambda n, s=shape: Made(nested(s, n)), wide_key)
        yield Series(f"`contains`, {name}", "contains", lambda n, s=shape: Made(nested(s, n), other=nested(s, n, 2)), DEPTHS)
        for path in ("$.**", "$.**{1 to last}"):
            yield Series(f"`{path}`, {name}", "exists", lambda n, s=shape, p=path: Made(nested(s, n), p.encode()), DEPTHS)
        step = "0" if shape == "only" else "k"
        for call in ("get_by_keypath", "delete_by_keypath"):
            text = lambda n, k=step: ("{" + ",".join([k] * n) + "}").encode()
            yield Series(f"`{call}`, {name}", call, lambda n, s=shape, t=text: Made(nested(s, n), t(n)), DEPTHS)


def of_nesting() -> Iterator[Series]:
    """Filters within filters, over 100 elements: each within the one before begins at the root."""

    def exists(levels: int) -> str:
        return "$[*]?(exists(" * levels + "$[*]" + "))" * levels

    def compared(levels: int) -> str:
        return "$[*]?(exists(" * (levels - 1) + "$[*]?(@ == $[*])" + "))" * (levels - 1)

    def below(levels: int) -> str:
        return "$" + ".**" * levels

    lists = numbers(100)
    for text in (exists, compared):
        yield Series(f"`{text(2)}`, nested n deep", "select", lambda n, t=text: Made(lists, t(n).encode()), NESTINGS)
    yield Series("`$.**.**`, n times, at depth 10", "select", lambda n: Made(nested("only", 10), below(n).encode()), [1, 2, 4])


def of_checks() -> Iterator[Series]:
    """Series of one size each, for `check` and a copy of the same document."""
    documents = [
        ("a string of 1.2 MB, ASCII", document("plain text. " * 100_000)),
        ("a string of 1.7 MB, not ASCII", document("größer als ∅ " * 100_000)),
        ("100,000 integers", numbers(100_000)),
        ("100,000 members", wide(100_000)),
        ("100,000 objects of 4 members", people(100_000)),
    ]
    for name, value in documents:
        for call in ("check", "memcpy"):
            yield Series(f"`{call}`, {name}", call, lambda n, v=value: Made(v), [len(value)])


# ---- building


def linked(name: str, *words: str) -> str:
    """The program calls.c, with a library that has the calls."""
    program = os.path.join(OUT, name)
    source = os.path.join(HERE, "calls.c")
    subprocess.run(["cc", "-std=gnu11", "-O2", "-Wall", "-Wextra", "-o", program, source, *words], check=True)
    return program


def driver() -> str:
    return linked("calls", measure_speed.our_library(), measure_speed.c_library())


def rust_driver(rust_crate: str | None) -> str:
    built = measure_speed.cargo_build(rust_crate, "", "--lib")
    return linked("rust_calls", os.path.join(built, "librust_calls.a"), "-lpthread", "-ldl", "-lm")


# ---- cases


def file_of(content: bytes) -> str:
    """The file with this content: one for all cases that have it."""
    if not content:
        return "-"
    path = os.path.join(OUT, "files", hashlib.sha256(content).hexdigest()[:24])
    if not os.path.exists(path):
        with open(path, "wb") as file:
            file.write(content)
    return path


def line_of(series: Series, size: int) -> str:
    made = series.make(size)
    files = (file_of(made.argument), file_of(made.other), file_of(made.document))
    return "\t".join([series.name, str(size), series.call, *files])


def write_cases(lines: list[str]) -> str:
    path = os.path.join(OUT, "growth.tsv")
    with open(path, "w") as file:
        file.writelines(line + "\n" for line in lines)
    return path


# ---- measuring


Costs = dict[tuple[str, int], float]


def under_large_stack() -> None:
    hard = resource.getrlimit(resource.RLIMIT_STACK)[1]
    resource.setrlimit(resource.RLIMIT_STACK, (STACK if hard < 0 else min(STACK, hard), hard))


def times(program: str, lines: list[str], mode: str = "times") -> Costs:
    """Nanoseconds of a call: the best of many, or of three by the mode `few`."""
    words = [program, mode, write_cases(lines), str(LIMIT)]
    how = {"stdout": subprocess.PIPE, "text": True, "check": True, "timeout": PATIENCE if mode == "few" else None}
    said = subprocess.run(words, **how, preexec_fn=under_large_stack).stdout
    rows = (line.split("\t") for line in said.splitlines())
    return {(name, int(size)): float(cost) for name, size, cost in rows}


def counts(program: str, lines: list[str]) -> Costs:
    """Instructions of a call."""
    out = os.path.join(OUT, "callgrind.out")
    options = ["--tool=callgrind", "--combine-dumps=yes", f"--callgrind-out-file={out}", f"--main-stacksize={STACK}"]
    words = ["valgrind", *options, program, "counts", write_cases(lines)]
    subprocess.run(words, check=True, capture_output=True, env=measure_speed.tuned(measure_speed.BY_VECTORS))
    found, made = {}, None
    for line in open(out):
        if named := re.match(r"desc: Trigger: Client Request: (\d+)", line):
            made = int(named[1])
        elif (total := re.match(r"totals: (\d+)", line)) and made is not None:
            name, size = lines[made].split("\t")[:2]
            found[name, int(size)], made = float(total[1]), None
    os.remove(out)
    return found


def more_sizes(series: Series) -> list[int]:
    """The sizes at which the document has about BYTES, if it grows with elements or members."""
    most = len(series.make(SIZES[1]).document)
    return [SIZES[1] * it // most for it in BYTES] if series.sizes == SIZES and most > len(series.make(1).document) else []


def costs(program: str, chosen: list[Series], by_time: bool) -> Costs:
    lines = [line_of(series, size) for series in chosen for size in sorted({*series.sizes, *more_sizes(series)})]
    if by_time:
        return times(program, lines)
    timed = times(program, lines, "few")
    return counts(program, [line for line in lines if (line.split("\t")[0], int(line.split("\t")[1])) in timed])


def rust_costs(program: str, chosen: list[Series], by_time: bool) -> Costs:
    """Those of the Rust crate. A series is left out if it lacks the call, or a call fails or does not end."""
    found = {}
    for series in chosen:
        if series.call not in ALONE:
            with contextlib.suppress(subprocess.SubprocessError):
                found |= costs(program, [series], by_time)
    return found


# ---- figures


def exponent(series: Series, found: Costs, sizes: list[int]) -> str:
    """The exponent of the last two of these sizes that were measured: 1 is linear."""
    sizes = [n for n in sizes if (series.name, n) in found]
    if len(sizes) < 2:
        return ""
    few, many = sizes[-2:]
    return f"{math.log(found[series.name, many] / found[series.name, few]) / math.log(many / few):.2f}"


def figures(unit: str, series: Series, sides: dict[str, Costs], per: bool) -> dict[str, str]:
    """The row of docs/measured/growth.csv: the cost of each unit, or of the whole call, and its exponents, here and in the Rust crate."""
    row = {"unit": unit, "call": series.name}
    for side, found in sides.items():
        row[f"{side}exponent"] = exponent(series, found, series.sizes)
        row[f"{side}25_to_100_kb"] = exponent(series, found, more_sizes(series))
        for n in series.sizes:
            if (cost := found.get((series.name, n))) is not None:
                figure = cost / n if per else cost
                row[f"{side}{n}"] = f"{figure:.0f}" if figure >= 10 else f"{figure:.1f}"
    return row


def check_figures(program: str) -> Iterator[dict[str, str]]:
    """The rows of docs/measured/check.csv: a document, read by `check` and copied."""
    chosen = list(of_checks())
    lines = [line_of(series, series.sizes[0]) for series in chosen]
    found = times(program, lines)
    for check, copy, line in zip(chosen[::2], chosen[1::2], lines[::2]):
        took = [f"{found[it.name, it.sizes[0]]:.0f}" for it in (check, copy)]
        size = os.path.getsize(line.split("\t")[5])
        yield dict(zip(measured.COLUMNS["check"], [check.name.split(", ", 1)[1], *took, size]))


PARTS = [
    ("elements of an array", of_arrays, True),
    ("members of an object", of_objects, True),
    ("elements or members, by path", of_selections, True),
    ("steps, conditions or parentheses of a path", of_texts, True),
    ("levels of a document", of_depth, True),
    ("nested filters or steps", of_nesting, False),
]


def growth_figures(program: str, rust: str, only: str, by_time: bool) -> Iterator[dict[str, str]]:
    for unit, part, per in PARTS:
        chosen = [series for series in part() if only in series.name]
        if chosen:
            print(f"{len(chosen)} series: {unit}", file=sys.stderr)
            sides = {"": costs(program, chosen, by_time), "rust_": rust_costs(rust, chosen, by_time)}
            yield from (figures(unit, series, sides, per) for series in chosen)


def main() -> None:
    words = argparse.ArgumentParser(description=__doc__, formatter_class=argparse.RawDescriptionHelpFormatter)
    words.add_argument("--only", default="")
    words.add_argument("--times", action="store_true")
    words.add_argument("--crate")
    words.add_argument("--write", action="store_true")
    asked = words.parse_args()
    if asked.only and asked.write:
        words.error("--write takes all cases")
    shutil.rmtree(os.path.join(OUT, "files"), ignore_errors=True)
    os.makedirs(os.path.join(OUT, "files"))
    program, rust = driver(), rust_driver(asked.crate)
    growth = list(growth_figures(program, rust, asked.only, asked.times or not shutil.which("valgrind")))
    found = {"growth": growth, "check": [] if asked.only else list(check_figures(program))}
    for name, rows in found.items():
        measured.save(name, rows) if asked.write else print(measured.as_csv(name, rows))
    shutil.rmtree(os.path.join(OUT, "files"))


if __name__ == "__main__":
    main()
