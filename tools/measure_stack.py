#!/usr/bin/env python3
"""Measures the stack that calls use, on documents and paths nested a million deep.

  measure_stack.py            runs each call in 256 KiB: it must return the result of a model. The last line is 'N passed, M failed'
  measure_stack.py --table    prints the least stack that each call returns in; with --write, writes docs/measured/stack.csv
  measure_stack.py --more     runs the calls that C lacks, which the gate does not; with --table, their least stacks, and with
                              --write docs/measured/stack_more.csv

--write also writes the tables of docs/STACK.md. bindings/c/deep.c builds the documents and makes the calls, with the library of
bindings/c (`make -C bindings/c`). For --more, tools/speed/calls.c makes the calls and tools/nested.py the documents, with the library
that tools/measure_growth.py builds, in tools/speed/out.
"""
import os
import resource
import shutil
import subprocess
import sys
from dataclasses import dataclass

sys.dont_write_bytecode = True
TOP = os.path.dirname(os.path.dirname(os.path.abspath(__file__)))
sys.path.insert(0, os.path.join(TOP, "tools"))
import measure_growth
import measured
from nested import SHAPES, TURNS, nested

DEEP = os.path.join(TOP, "bindings", "c", "out", "deep")
SPEED = os.path.join(TOP, "tools", "speed", "out")
SWEEP = os.path.join(TOP, "crates", "jsonb_sweep", "out", "jsonb_sweep")
TEXT = 1 << 20
MILLION = 1_000_000
# How deep values and paths are that jsonb_sweep decodes: each level is some hundred bytes of memory.
DECODED = 200_000
# The greatest level that a wide sortable key has room for.
WIDE = 65_535


@dataclass
class Run:
    call: str
    shape: str
    levels: int
    answer: str | None  # what deep prints, or None if any result is right


# ---- the model


def turns(shape, levels):
    """The number of levels of each simple shape in a document."""
    if shape != "alternating":
        return {shape: levels}
    return {s: (levels + 3 - i) // 4 for i, s in enumerate(TURNS)}


def document_len(shape, levels):
    front = {"only": 8, "last": 14, "first": 14, "middle": 20, "pair": 13}
    return 8 + TEXT + sum(front[s] * n for s, n in turns(shape, levels).items())


def equality_key_len(shape, levels):
    """An array 5 bytes, an object 5 and 3 of its key, a number 6, the text its length and 2."""
    level = {"only": 5, "last": 11, "first": 11, "middle": 17, "pair": 8}
    return 5 + TEXT + 2 + sum(level[s] * n for s, n in turns(shape, levels).items())


def wide_key_len(shape, levels):
    """Two bytes of depth and one of kind an item: a number 5 more, a key 2, the text its length and 1."""
    level = {"only": 3, "last": 11, "first": 11, "middle": 19, "pair": 8}
    return 3 + 3 + TEXT + 1 + sum(level[s] * n for s, n in turns(shape, levels).items())


def distinct_len(shape, length):
    """An object becomes an array of itself. One of the two numbers around a middle child is left."""
    return length + {"pair": 8, "middle": -6}.get(shape, 0)


def joined_len(shape, length):
    """With the other document, whose text is a byte longer: of arrays without its header, of objects it alone."""
    return length + 1 if shape == "pair" else 2 * length + 1 - 4


def document_runs(shape):
    length = document_len(shape, MILLION)
    numbers_at_root = shape in ("last", "first", "middle", "alternating")
    yield Run("check", shape, MILLION, "JDOC_OK 0 0")
    yield Run("contains", shape, MILLION, "JDOC_OK 0 0")
    yield Run("compare", shape, MILLION, "JDOC_OK 0 1")
    yield Run("array_overlap", shape, MILLION, f"JDOC_OK 0 {int(numbers_at_root)}")
    yield Run("equality_key", shape, MILLION, f"JDOC_OK {equality_key_len(shape, MILLION)} 0")
    yield Run("sort_key", shape, MILLION, "JDOC_TOO_DEEP 0 0")
    yield Run("sort_key_wide", shape, MILLION, "JDOC_TOO_DEEP 0 0")
    yield Run("sort_key_wide", shape, WIDE - 1, f"JDOC_OK {wide_key_len(shape, WIDE - 1)} 0")
    yield Run("sort_key_wide", shape, WIDE, "JDOC_TOO_DEEP 0 0")
    yield Run("strip_nulls", shape, MILLION, f"JDOC_OK {length} 0")
    yield Run("array_distinct", shape, MILLION, f"JDOC_OK {distinct_len(shape, length)} 0")
    yield Run("concat", shape, MILLION, f"JDOC_OK {joined_len(shape, length)} 0")
    yield Run("select_below", shape, MILLION, "JDOC_OK 0 1")
    by_zeros = shape in ("only", "first")
    yield Run("get_by_keypath", shape, MILLION, f"JDOC_OK {8 + TEXT} 0" if by_zeros else "JDOC_NONE 0 0")
    yield Run("delete_by_keypath", shape, MILLION, f"JDOC_OK {length - (4 + TEXT if by_zeros else 0)} 0")


# Filters within filters in each form, with their truth for the array in deep.c.
FILTERS = {
    "filters": 1,
    "filters_of_elements": 1,
    "filters_in_parentheses": 1,
    "filters_and_step": 0,
    "filters_and_filter": 1,
    "filters_with_and": 1,
    "filters_with_or": 1,
    "filters_with_arithmetic": 0,
}


def path_runs():
    for shape in ("open_parentheses", "unfinished_filters"):
        yield Run("exists", shape, MILLION, "JDOC_INVALID_JSON_PATH 0 0")
    truths = {"parentheses": 0, "and_chain": 1, "or_chain": 0, "right_sides": 1, "fields": 0}
    for shape, truth in {**truths, **FILTERS}.items():
        yield Run("exists", shape, MILLION, f"JDOC_OK 0 {truth}")


# ---- running


def ends(run, stack):
    """What a run prints with a stack of that many bytes, or None if it was killed."""
    return printed([DEEP, run.call, run.shape, str(run.levels)], stack)


def printed(words, stack, content=b""):
    limit = lambda: resource.setrlimit(resource.RLIMIT_STACK, (stack, resource.getrlimit(resource.RLIMIT_STACK)[1]))
    made = subprocess.run(words, preexec_fn=limit, input=content, capture_output=True)
    return made.stdout.decode().strip() if made.returncode == 0 else None


# ---- the test


SMALL_STACK = 256 << 10

def judged(run):
    """The fault of a run, or None."""
    said = ends(run, SMALL_STACK)
    if said is None:
        return "was killed"
    if run.answer is not None and said != run.answer:
        return f"returned {said}, expected {run.answer}"
    return None


def decoded():
    """Values and paths for jsonb_sweep, which decodes or parses one, clones, compares, prints and drops it: kind, shape, input."""
    joined = f"$?({'(' * (DECODED - 1)}1 == 1{' && 1 == 1)' * (DECODED - 1)} && 1 == 1)".encode()
    yield from (("document", shape, nested(shape, DECODED)) for shape in SHAPES)
    yield from (("path", shape, path_text(PATHS[shape], DECODED)) for shape in ("filters", "filters_of_elements", "fields"))
    yield "path", "and_chain", joined


def decoded_fault(kind, content):
    """What is wrong with jsonb_sweep on a value or a path, or None."""
    said = printed([SWEEP, kind], SMALL_STACK, content)
    return {"right": None, None: "was killed"}.get(said, f"printed {said}")


def test():
    runs = [run for shape in SHAPES for run in document_runs(shape)] + list(path_runs())
    faults = [f"{run.call} on {run.shape}, {run.levels} levels: {fault}" for run in runs if (fault := judged(run))]
    values = [*decoded()]
    faults += [f"{kind} {shape}, decoded: {fault}" for kind, shape, content in values if (fault := decoded_fault(kind, content))]
    for it in faults:
        print(it)
    print(f"{len(runs) + len(values) - len(faults)} passed, {len(faults)} failed")
    return len(faults)


# ---- the table


def least_stack(ends_in):
    """The least stack that a run returns in, to 4 KiB, or None if 1 GiB does not suffice."""
    low, high = 8 << 10, 16 << 10
    while ends_in(high) is None:
        if high == 1 << 30:
            return None
        low, high = high, 2 * high
    while high - low > 4 << 10:
        middle = (low + high) // 2 // 4096 * 4096
        if ends_in(middle) is None:
            low = middle
        else:
            high = middle
    return high


def least_of(run):
    return least_stack(lambda stack: ends(run, stack))


def kibibytes(stack):
    return "over 1 GiB" if stack is None else str(stack >> 10)


def figures(call, shape, few, many):
    """A row of docs/measured/stack.csv or stack_more.csv."""
    row = dict(zip(measured.COLUMNS["stack"], [call, shape, kibibytes(few), kibibytes(many)]))
    print(*row.values(), file=sys.stderr)
    return row


def table():
    """A row for each call: its least stack on the shape that needs most, at 10,000 and at 100,000 levels. `exists` has one for
    each shape of a path."""
    rows = []
    calls = dict.fromkeys(run.call for run in document_runs("only"))
    for call, shapes in [(call, SHAPES) for call in calls] + [("exists", [run.shape]) for run in path_runs()]:
        stacks = {s: least_of(Run(call, s, 100_000, None)) for s in shapes}
        worst = max(stacks, key=lambda s: stacks[s] or 1 << 40)
        rows.append(figures(f"`{call}`", worst, least_of(Run(call, worst, 10_000, None)), stacks[worst]))
    return rows


# ---- the calls that C lacks

# Each with what it does to the document of a shape, or to the text of a path.
MORE_ON_DOCUMENTS = {
    "contains": "`contains`, of the document itself",
    "depth": "`depth`",
    "check_depth": "`check_depth`",
    "traverse_check_string": "`traverse_check_string`",
    "leaves": "leaves",
    "to_value": "`to_value` and drop",
    "value_clone": "`clone` of a value",
    "value_equal": "`==` of a value",
}
MORE_ON_PATHS = {
    "parse_path": "parse and drop a path",
    "path_clone": "`clone` of a path",
    "path_to_owned": "`to_owned` of a path",
    "path_equal": "`==` of a path",
    "path_print": "print a path",
}
MORE_ON_KEY_PATHS = {
    "parse_keypath": "parse and drop a key path",
    "keypath_clone": "`clone` of a key path",
    "keypath_to_owned": "`to_owned` of a key path",
    "keypath_print": "print a key path",
}
# As in bindings/c/deep.c: the start, what is repeated, the middle, and what is repeated at the end.
PATHS = {
    "parentheses": ("$?", "(", "@ == 1", ")"),
    "filters": ("$", "?(exists(@", "", "))"),
    "filters_of_elements": ("$", "[*]?(exists(@", "", "))"),
    "and_chain": ("$?(1==1", "&&1==1", ")", ""),
    "or_chain": ("$?(1==2", "||1==2", ")", ""),
    "right_sides": ("$?(", "1==1&&(", "1==1)", ")"),
    "fields": ("$", ".k", "", ""),
}
KEY_PATH = ("{0", ",0", "}", "")
# A limit that no document here exceeds.
LIMIT = str(2 * MILLION)


def path_text(parts, times):
    before, again, behind, closed = parts
    return (before + again * times + behind + closed * times).encode()


def written(name, content):
    path = os.path.join(SPEED, "files", name)
    if not os.path.exists(path):
        with open(path, "wb") as file:
            file.write(content)
    return path


def content_of(shape, levels):
    if shape in SHAPES:
        return nested(shape, levels, TEXT)
    return path_text(PATHS.get(shape, KEY_PATH), levels)


def more_ends(program, call, shape, levels, stack):
    argument = written("limit", LIMIT.encode()) if call == "check_depth" else "-"
    text = written(f"{shape}_{levels}", content_of(shape, levels))
    return printed([program, "once", call, argument, text if call == "contains" else "-", text], stack)


def printed_len(shape, times):
    """The length of a printed path: joined conditions are in parentheses if they are operands, and only then."""
    if shape == "parentheses":
        return len("$?(@ == 1)")
    if shape in ("and_chain", "or_chain", "right_sides"):
        return len("$?(1 == 1)") + len(" && 1 == 1") * times + len("()") * (times - 1)
    return len(path_text(PATHS[shape], times))


def more_answer(call, shape, levels):
    """What a run prints, or None if any result will do. The innermost string is in another array."""
    answers = {
        "contains": 1,
        "depth": levels + 1,
        "check_depth": 1,
        "leaves": 1,
        "traverse_check_string": 0,
        "to_value": 0,
        "value_clone": 0,
        "value_equal": 1,
        "path_equal": 1,
    }
    if call == "path_print":
        return str(printed_len(shape, levels))
    return str(answers[call]) if call in answers else None


def more_asked():
    """Each call, its name in the table, and its shapes: all those of documents together, each of a path alone."""
    # A leaf has a step for each level above it: if each level has a leaf, all of them take quadratic space.
    shapes_of = lambda call: ["only", "pair"] if call == "leaves" else SHAPES
    yield from ((call, name, shapes_of(call)) for call, name in MORE_ON_DOCUMENTS.items())
    yield from ((call, name, [shape]) for shape in PATHS for call, name in MORE_ON_PATHS.items())
    yield from ((call, name, ["key_path"]) for call, name in MORE_ON_KEY_PATHS.items())


def more_fault(program, call, shape):
    """The fault of a call at a million levels in the small stack, or None."""
    said, answer = more_ends(program, call, shape, MILLION, SMALL_STACK), more_answer(call, shape, MILLION)
    if said is None:
        return "was killed"
    if said == "refused" or answer not in (None, said):
        return f"returned {said}, expected {answer}"
    return None


def more_test(program):
    asked = [(call, shape) for call, _, shapes in more_asked() for shape in shapes]
    failed = 0
    for call, shape in asked:
        if fault := more_fault(program, call, shape):
            failed += 1
            print(f"{call} on {shape}: {fault}")
    print(f"{len(asked) - failed} passed, {failed} failed")
    return failed


def more_table(program):
    rows = []
    for call, name, shapes in more_asked():
        least = lambda shape, levels: least_stack(lambda stack: more_ends(program, call, shape, levels, stack))
        stacks = {shape: least(shape, 100_000) for shape in shapes}
        worst = max(stacks, key=lambda shape: stacks[shape] or 1 << 40)
        rows.append(figures(name, worst, least(worst, 10_000), stacks[worst]))
    return rows


def more(wants_table):
    files = os.path.join(SPEED, "files")
    shutil.rmtree(files, ignore_errors=True)
    os.makedirs(files)
    program = measure_growth.driver()
    said = more_table(program) if wants_table else more_test(program)
    shutil.rmtree(files)
    return said


# ---- what is asked


def build():
    subprocess.run(["make", "-s", "-C", os.path.join(TOP, "bindings", "c"), "deep"], check=True)


def show(name, rows, is_written):
    measured.save(name, rows) if is_written else print(measured.as_csv(name, rows), end="")
    return 0


def main(words):
    wanted, is_written = [word for word in words if word != "--write"], "--write" in words
    if wanted == ["--more", "--table"]:
        return show("stack_more", more(True), is_written)
    if wanted == ["--more"] and not is_written:
        return 1 if more(False) else 0
    build()
    if wanted == ["--table"]:
        return show("stack", table(), is_written)
    if words:
        print(__doc__)
        return 2
    return 1 if test() else 0


if __name__ == "__main__":
    sys.exit(main(sys.argv[1:]))
