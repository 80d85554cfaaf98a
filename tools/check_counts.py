#!/usr/bin/env python3
"""Compares the numbers of mutants, tests, rows and other cases with tools/counts.toml, and finds public calls that a check lacks.

    tools/check_counts.py            compares; the last line is 'N passed, M failed'
    tools/check_counts.py --write    writes the commands, the numbers and the missing calls to tools/counts.toml, and keeps the reasons
                                     given there

A mutant, a test module or a row that is deleted leaves the gate green with a smaller number. So each number is in
tools/counts.toml, and a change that lowers one has to say so there. Each public call has to be named in docs/API.md, in a row of
docs/rows/, in a test, in the allocation-failure sweep and in the name of one of its cases, among the calls on damaged documents, in
a mutant, in the C library and among the calls that tools/measure_speed.py measures, each of which has a case.
tools/counts.toml lists each exception by its name, below a reason. It also has the lines of definitions that a reader of contracts must
agree with, so that they do not grow unseen.

Only what runs is counted: source files that a `mod` line includes, and of the sweep and the damaged documents what `main` and the
tests reach.
"""

import ast
import os
import re
import subprocess
import sys
import textwrap
import tomllib
from collections import Counter
from pathlib import Path

sys.dont_write_bytecode = True
import check_docs
import check_quotes
import edits
import measure_stack
import results
import rows

sys.path.insert(0, str(Path(__file__).resolve().parent / "speed"))
import cases as speed

ROOT = Path(__file__).resolve().parent.parent
CRATES = ROOT / "crates"
STATED = ROOT / "tools/counts.toml"
NO_REASON = "no reason yet"
# The longest line of tools/counts.toml that --write makes.
WIDTH = 120
CALL = re.compile(r"\b(\w+)(?:::<[^>]*>)?\(")
MODULE = re.compile(r"^ *(?:pub(?:\([^)]*\))? )?mod (\w+);", re.M)
TEST = re.compile(r"^ *#\[test\]\n(?: *#\[.*\n)* *fn (\w+)", re.M)
# The size with which the name of a case of the sweep begins.
SIZE = re.compile(r"((?:16 \* |depth )?)\d+(?=:| \w+(?: \w+)?:)")
# The folders of specs/ with what only unexported functions and proofs use, what is for bytes that may not decode, and what is stored.
ELSEWHERE = ("Private", "Proofs", "AnyBytes", "Representation")
# The beginning of a function, a table or a macro.
PART = re.compile(r"^(?= *(?:pub(?:\([^)]*\))? )?(?:fn|static|const|macro_rules!) (\w+))", re.M)


def text_of(*places):
    """Returns the text of these files, and of all files below these folders."""
    paths = [it for place in places for it in (sorted(place.rglob("*")) if place.is_dir() else [place])]
    return "\n".join(it.read_text(errors="replace") for it in paths if it.is_file() and it.suffix != ".pyc")


def crate_names():
    lines = (ROOT / "crates.txt").read_text().splitlines()
    return [line.split(":")[0].split()[0] for line in lines if line and not line.startswith("#")]


def sources(crate):
    """Returns the text of each source file of a crate that `mod` lines include, by its path below src/."""
    folder, found = CRATES / crate / "src", {}
    left = [Path("lib.rt"), Path("main.rt")]
    for path in left:
        if (folder / path).is_file():
            found[str(path)] = (folder / path).read_text()
            inside = Path() if str(path) in ("lib.rt", "main.rt") else path.with_suffix("")
            left += [inside / f"{name}.rt" for name in MODULE.findall(found[str(path)])]
    return found


def source(crate):
    return "\n".join(sources(crate).values())


def mutants(crate, *kinds):
    """Returns the functions that the mutants of a crate change, one for each. They are in all folders, or in these."""
    folder = CRATES / crate
    parts = [it for file in edits.files_of(folder, *kinds) for it in re.split(r"^#.*", file.read_text(), flags=re.M)]
    return [it for part in parts for it in edits.functions_of(part, str(folder))]


# ---- numbers


def public_clauses(text):
    """Returns how many clauses the public functions and traits of a source text have.

    The head of a function with clauses ends at a row `{`, or `{}` if it is a law, and may have comments between clauses.
    """
    heads = re.findall(r"^( *)pub (?:const |unsafe |extern \"C\" )*fn .*\n((?:(?:\1[ )].*)?\n)*)\1\{\}?$", text, re.M)
    traits = re.findall(r"^pub trait .*?^\}$", text, re.M | re.S)
    return len(re.findall(r"^ *ensures ", "".join([*(head for _, head in heads), *traits]), re.M))


def test_texts(crate):
    """Yields the text of each file of a crate's tests, and what follows `#[cfg(test)]` in the other files."""
    for path, text in sources(crate).items():
        yield text if "tests" in path.removesuffix(".rt").split("/") else text.partition("#[cfg(test)]\n")[2]


def words_of(text):
    """Returns how many words and signs are in those lines that are not comments."""
    return len(re.findall(r"\w+|[^\w\s]", re.sub(r"^ *(?://|#(?!!?\[)|--).*", "", text, flags=re.M)))


def numbers_of_crate(crate):
    text = source(crate)
    yield "public clauses", public_clauses(text)
    yield "ghost members", len(re.findall(r"^ *ghost (?!use|mod|fn|let)\w+ = ", text, re.M))
    yield "mutants", len(mutants(crate))
    yield "mutants that the prover tries", len(mutants(crate, edits.TRIED))
    yield "tests", len(TEST.findall(text))
    yield "assertions", len(re.findall(r"\bassert\w*!\(|(?<!\.)\bexpect(?:_\w+)?\(", text))
    yield "words of tests", sum(map(words_of, test_texts(crate)))
    # (The type of a table says how many entries it has.)
    yield "table entries", sum(map(int, re.findall(r"^ *(?:pub(?:\([^)]*\))? )?(?:static|const) \w+: \[.*; (\d+)\] =", text, re.M)))
    yield "laws", len(re.findall(r"^pub fn ", sources(crate).get("laws.rt", ""), re.M))


def lines_of_definitions(crates, *folders):
    """Returns how many lines the definitions of crates have in these folders of specs/, or outside of those that ELSEWHERE names."""
    found = 0
    for path in (it for crate in crates for it in sorted((CRATES / crate / "specs").rglob("*.antt"))):
        folder = path.relative_to(CRATES).parts[2]
        if folder in folders or not folders and folder not in ELSEWHERE:
            found += sum(not re.match(r" *(?:--.*|(?:pub )?(?:use|mod) .*)?$", line) for line in path.read_text().splitlines())
    return found


def numbers_of_definitions():
    """Yields how long the definitions are that a reader of contracts must agree with (docs/PROOFS.md)."""
    programs = ["jsonb_c", "jsonb_tool"]
    yield "lines of definitions of the libraries", lines_of_definitions(check_docs.CRATES)
    yield "lines of definitions of jsonb_c and jsonb_tool", lines_of_definitions(programs)
    for folder in ("AnyBytes", "Representation"):
        yield f"lines of definitions in {folder}", lines_of_definitions([*check_docs.CRATES, *programs], folder)


def names_of_cases(file):
    """Returns the names of cases in a file of the sweep, without what precedes them in its lines."""
    before = {"growths": 1, "stdout": 2, "large": 0}[file]
    return [it.split(" ", before)[-1] for it in text_of(CRATES / "jsonb_sweep" / file).splitlines()]


def faults_of_sweep():
    """Yields an error for each case that one of the sweep's files lacks or has twice.

    A case whose name begins with a size has to be among the large ones too.
    """
    cases, printed, large = map(names_of_cases, ("growths", "stdout", "large"))
    yield from (f"jsonb_sweep: only one of growths and stdout has {name!r}" for name in {*cases} ^ {*printed})
    yield "" if cases == printed else "jsonb_sweep: growths and stdout do not have the same names in the same order"
    for file, names in {"growths": cases, "large": large}.items():
        yield from (f"jsonb_sweep/{file} has {name!r} {count} times" for name, count in Counter(names).items() if count > 1)
    sized, sized_large = ({SIZE.sub(r"\1N", it) for it in names if SIZE.match(it)} for names in (cases, large))
    yield from (f"jsonb_sweep: {name!r} has only one size" for name in sized ^ sized_large)


def numbers_of_sweep():
    yield "cases of the sweep", len(names_of_cases("stdout"))
    yield "large cases of the sweep", len(names_of_cases("large"))
    yield "sizes of the large cases", sum(int(it) for it in re.findall(r"^(?:16 \* |depth )?(\d+)", text_of(CRATES / "jsonb_sweep/large"), re.M))
    allocations = [it.split()[0] for it in text_of(CRATES / "jsonb_sweep/growths").splitlines()]
    yield "allocations of the sweep", sum(int(it) for it in allocations if it.isdigit())
    script = text_of(ROOT / "tools/sweep_memory.sh")
    yield "runs of jsonb_tool in the sweep", len(re.findall(r"^(?:sweep|large)_tool ", script, re.M))
    yield "faults that the sweep finds", len(re.findall(r"\bfault \S", script)) + len(re.findall(r"\) why = ", script))


def numbers_of_programs():
    """Yields how many files say what a program is run on and must print. The lines of the sweep are its cases."""
    for crate in crate_names():
        files = [it for it in (CRATES / crate / name for name in ("args", "stdin", "stdout", "status")) if it.is_file()]
        yield f"files of the run of {crate}", len(files)
    for crate in ("jsonb_tool", "jsonb_lines"):
        yield f"lines of {crate}", len(text_of(CRATES / crate / "stdout").splitlines())


def lines_written(program):
    """Returns how many lines a Python program writes."""
    return len(subprocess.run([sys.executable, ROOT / program], capture_output=True, text=True, check=True).stdout.splitlines())


def numbers_of_bindings():
    folder = ROOT / "bindings"
    for name in ("python", "sqlite", "postgres"):
        yield f"tests of {name}", len(re.findall(r"^ *def test_", text_of(folder / name / "tests"), re.M))
        yield f"statements of {name}", len(re.findall(r";$", text_of(*folder.glob(f"{name}/**/*.sql")), re.M))
    yield "tests of rust", len(re.findall(r"^ *#\[test\]$", text_of(folder / "rust/tests", folder / "rust/src"), re.M))
    yield "checks of C", len(re.findall(r"\b(?:judge|expect|EXPECT)\(", text_of(folder / "c/tests", folder / "text/tests")))
    yield "lines of the C interface", len(text_of(folder / "c/abi.txt").splitlines())
    yield "rows of C", lines_written("bindings/tests/rows.py")
    yield "rows of JSON text", lines_written("bindings/text/tests/rows.py")
    yield "commands of the tests", len(re.findall(r"^ *(?:\[.*\] \|\| )?count \"", text_of(*folder.rglob("*.sh")), re.M))


def entries_of(path, name):
    """Returns how many entries the list, table or set has that a Python file gives this name."""
    given = {it.targets[0].id: it.value for it in ast.parse((ROOT / path).read_text()).body if isinstance(it, ast.Assign) and isinstance(it.targets[0], ast.Name)}
    return len(getattr(given[name], "elts", None) or given[name].keys)


def numbers_of_pages():
    """Yields what check_quotes.py and a reader of docs/PROOFS.md find: quoted blocks, rows and their tables, and promises."""
    pages = [ROOT / "README.md", *sorted((ROOT / "docs").glob("*.md"))]
    yield "quoted blocks of pages", sum(len([*check_quotes.blocks(it.read_text().splitlines())]) for it in pages)
    yield from ((f"lines of docs/rows/{it.name}", len([*rows.read(it.stem)])) for it in sorted((ROOT / "docs/rows").glob("*.tsv")))
    yield "tables of rows of pages", len(re.findall(r"^<!-- (?:rows|bytes): ", text_of(*pages), re.M))
    yield "lines of tables of docs/API.md", len(re.findall(r"^\| ", text_of(ROOT / "docs/API.md"), re.M))
    yield "promises of docs/PROOFS.md", len(re.findall(r"^\| (?!Promise )|^- \*\*", text_of(ROOT / "docs/PROOFS.md"), re.M))


def assertions_of_bindings():
    """Yields how many assertions the tests of each binding have: a test that loses one passes."""
    folder = ROOT / "bindings"
    for name in ("python", "sqlite", "postgres", "rust"):
        yield f"assertions of {name}", len(re.findall(r"\b(?:self\.)?assert\w*(?:!?\(| )", text_of(folder / name / "tests")))
    for name in ("c", "text", "python", "sqlite", "postgres", "rust"):
        yield f"words of the tests of {name}", words_of(text_of(*(folder / name / it for it in ("tests", "sql", "expected"))))
    yield "words of the tests of all bindings", words_of(text_of(folder / "tests"))
    yield "comparisons in the shell", len(re.findall(r"^ *(?:expect|test|diff) |\b(?:cmp|diff) ", text_of(*folder.rglob("*.sh")), re.M))
    yield "tests of PostgreSQL's own", len(re.search(r"for name in (.*); do", text_of(folder / "postgres/test.sh"))[1].split())
    yield "checks of names", len(re.search(r"for check in \((.*)\):", text_of(folder / "tests/exports.py"))[1].split(","))
    yield "packages of the tests", len(re.findall(r"[\w+.-]+", re.sub(r"#.*", "", re.search(r"packages=\((.*?)\n\)", text_of(folder / "setup.sh"), re.S)[1])))


def numbers_of_fuzzer():
    text = text_of(ROOT / "tools/fuzz.py")
    yield "groups of the fuzzer", len(re.findall(r"^        self\.\w+\(\)$", text, re.M)) + len(re.findall(r"\w+_case\(", text)) // 2
    yield "commands of the fuzzer", entries_of("tools/fuzz.py", "COMMANDS")
    names = ("NAMES", "TEXTS", "INTEGERS", "STEPS", "LITERALS", "OPERATORS")
    yield "parts of random cases", sum(entries_of("tools/fuzz/random_cases.py", it) for it in names)


def numbers_of_tools():
    yield "edits that test the judge", len(tomllib.loads((ROOT / "tools/judged.toml").read_text())["edit"])
    witnesses = tomllib.loads((ROOT / "tools/witnesses.toml").read_text())["witness"]
    yield from ((f"witnesses of {crate}", len(named)) for crate, named in witnesses.items())
    runs = [it for shape in measure_stack.SHAPES for it in measure_stack.document_runs(shape)]
    yield "runs in a small stack", len([*runs, *measure_stack.path_runs()])
    yield "values and paths in a small stack", len([*measure_stack.decoded()])
    yield "levels of documents in a small stack", measure_stack.MILLION
    yield "levels of values and paths in a small stack", measure_stack.DECODED
    yield "bytes of the small stack", measure_stack.SMALL_STACK
    yield "witnesses that test the judge", entries_of("tools/test_judge.py", "WITNESSES")
    yield "messages that test the judge", entries_of("tools/test_judge.py", "MESSAGES")
    yield "groups that test how mutants are tried", sum(entries_of("tools/test_judge.py", it) for it in ("GROUPED", "SAID"))
    yield "mutants that test what has a switch", entries_of("tools/test_judge.py", "SWITCHED")
    yield "texts that test where a mutant is", entries_of("tools/test_judge.py", "NAMED")
    yield "folders and reasons that test the judge", sum(entries_of("tools/test_judge.py", it) for it in ("FOLDERS", "EXPLAINED"))
    yield "cases that test the gate", entries_of("tools/test_gate.py", "CASES")
    yield "outputs that test what the gate repeats", entries_of("tools/test_gate.py", "PRINTED")
    yield "cases that test the gate's lanes", sum(entries_of("tools/test_gate.py", it) for it in ("LANES", "JOBS", "CHAINS"))
    yield "rules of the lint", entries_of("tools/lint.py", "RULES")
    for name in ("check_counts", "check_docs", "check_quotes", "lint", "test_gate", "test_judge", "witness"):
        yield f"places that yield in {name}.py", len(re.findall(r"\byield\b", text_of(ROOT / f"tools/{name}.py")))
    yield "tests that count work", len(tomllib.loads((ROOT / "tools/witnesses.toml").read_text())["counted"])
    kept = tomllib.loads((ROOT / "tools/witnesses.toml").read_text())["prover"]
    yield from ((f"mutants kept for the prover of {crate}", len(named)) for crate, named in kept.items())
    yield "broken outputs in the sweep", len(re.findall(r'"[\w ]+: \$', re.search(r"^for word in (.*); do", text_of(ROOT / "tools/sweep_memory.sh"), re.M)[1]))
    yield "cases of tools/speed", len([*speed.alone_cases()])
    yield "cases of tools/speed that the Rust crate runs", len(speed.cases())
    yield "comparisons of the fuzzer", len(re.findall(r"\.(?:compare|makes|truth|value|bytes)\(", text_of(ROOT / "tools/fuzz.py")))


def numbers():
    """Returns each number by its name; a zero is left out."""
    found = {"crates": len(crate_names()), "public calls": len([*public_calls()])}
    for crate in crate_names():
        found |= {f"{what} of {crate}": count for what, count in numbers_of_crate(crate)}
    for file in sorted(CRATES.rglob("rows.rt")):
        if "out" not in file.parts:
            found[f"rows of {file.relative_to(CRATES)}"] = file.read_text().count("\n")
    more = numbers_of_definitions, numbers_of_sweep, numbers_of_programs, numbers_of_bindings, assertions_of_bindings, numbers_of_tools, numbers_of_fuzzer, numbers_of_pages
    found |= dict(it for its in more for it in its())
    return {name: count for name, count in found.items() if count}


def commands():
    """Returns the commands that the gate counts, with their arguments, except the folder for what is built."""
    return re.findall(r"^count (.*?)(?: (?:>|--built ).*)?$", (ROOT / ".ci/run").read_text(), re.M)


# ---- public calls


def public_calls():
    """Returns the public functions that `jsonb` exports and those of the types that it exports, except laws."""
    exported, _ = check_docs.exported(CRATES / "jsonb")
    for crate in check_docs.CRATES:
        for it in check_docs.public_items(CRATES / crate):
            is_exported = crate == "jsonb" or it.name.partition("::")[0] in exported
            if it.kind == "fn" and is_exported and "/laws.rt" not in it.place:
                yield it.name


def names_in_page(page):
    return {word for code in re.findall(r"`([^`\n]+)`", page.read_text()) for word in re.findall(r"\w+", code)}


def names_in_rows():
    """Returns the calls of docs/rows/: those of calls.tsv, and what the tests of the other rows call."""
    return {*(row["function"] for row in rows.read("calls")), *CALL.findall(sources("jsonb_examples").get("tables.rt", ""))}


def tested_names():
    """Returns the functions that tests of the four libraries call, and the calls of their worked rows."""
    found = names_in_rows()
    for text in (it for crate in check_docs.CRATES for it in test_texts(crate)):
        found.update(CALL.findall(text))
    return found


def parts_of(crate):
    """Returns the text of each function, table and macro of a crate, by its name."""
    parts = {}
    for text in sources(crate).values():
        begins = [*PART.finditer(text)]
        for it, following in zip(begins, [*begins[1:], None]):
            parts[it[1]] = parts.get(it[1], "") + text[it.start() : following and following.start()]
    return parts


def reached_names(crate, starts):
    """Returns what is called by the functions of a crate that these functions reach, by the names in them."""
    parts = parts_of(crate)
    found, left = set(), {*starts} & {*parts}
    while left:
        found |= left
        left = {word for name in left for word in re.findall(r"\w+", parts[name]) if word in parts} - found
    return {name for it in found for name in CALL.findall(parts[it])}


def calls_in_name(case):
    """Yields the calls in the name of a case, such as `Number::eq` and `Number::cmp` of "Number::eq, cmp"."""
    owner = ""
    for part in case.rpartition(": ")[2].split(", "):
        call = part.partition(" ")[0]
        owner = call.rpartition("::")[0] or owner
        yield f"{owner}::{call.rpartition('::')[2]}" if owner else call


def mutated(calls):
    """Returns those of these calls of which some mutant changes the body: of a method of a trait, that of one of its impls."""
    names = {it.name.replace(r"\w*", "") for crate in check_docs.CRATES for it in mutants(crate) if it}
    traits = {it for crate in check_docs.CRATES for it in re.findall(r"^pub trait (\w+)", source(crate), re.M)}
    is_in_impl = lambda call: call.partition("::")[0] in traits and any(it.endswith(call) for it in names)
    return {call for call in calls if call in names or "::" in call and is_in_impl(call)}


def texts_of_speed():
    return [it.read_text() for it in sorted((ROOT / "tools/speed").glob("*.rt.txt"))]


def listed_in_speed():
    """Returns the methods that a macro of tools/speed lists, which have no parentheses there."""
    listed = re.findall(r"one_of!\(\w+, \w+, \|\w+\| [^,]*,(.*?)\)$", "\n".join(texts_of_speed()), re.M | re.S)
    return {word for it in listed for word in it.split()}


def measured_names():
    """Returns what tools/speed calls, except its own functions."""
    found = listed_in_speed()
    for text in texts_of_speed():
        own = {*re.findall(r"\bfn (\w+)", text)}
        qualified = {f"{it}::" for it in re.findall(r"^mod (\w+);", text, re.M)}
        calls = re.findall(rf"(\.|\b\w+::|){CALL.pattern}", text)
        found |= {name for before, name in calls if before not in qualified and (before or name not in own)}
    return found


def faults_of_speed():
    """Yields the names by which tools/speed makes calls and that no case of tools/speed/cases.py has, also after a selector's mode."""
    made = {speed.EMPTY.call, *(case.call for _, case in speed.alone_cases())}
    made |= {it.removeprefix("strict_").removeprefix("limited_") for it in made}
    named = {*listed_in_speed(), *re.findall(r'"(\w+[^_\W])"(?=\s*(?:\||=>))', "\n".join(texts_of_speed()))}
    yield from (f"tools/speed/cases.py has no case of {it}" for it in sorted(named - made))
    yield from [""] * len(named & made)


def c_names():
    return re.findall(r" \**jdoc_(\w+)\(", (ROOT / "bindings/c/abi.txt").read_text())


def missing():
    """Returns each place in which a public call has to be named, with the calls that are not, and those of which no mutant is.

    A place names a method by its type or without it.
    """
    calls = [*public_calls()]
    places = {
        "docs/API.md": names_in_page(ROOT / "docs/API.md"),
        "docs/rows": names_in_rows(),
        "a test": tested_names(),
        "the sweep": reached_names("jsonb_sweep", ["main"]),
        "a name of its cases": {call for it in names_of_cases("growths") for call in calls_in_name(it)},
        "damaged documents": reached_names("jsonb_vectors", TEST.findall(source("jsonb_vectors"))),
        "the C library": {*c_names()},
        "tools/speed": measured_names(),
    }
    lacks = {place: [it for it in calls if not {it, it.rpartition("::")[2]} & names] for place, names in places.items()}
    changed = mutated(calls)
    return lacks | {"a mutant": [it for it in calls if it not in changed]}


# ---- the file


def stated():
    """Returns what tools/counts.toml states: the gate's commands, the numbers, and by place the calls of each reason."""
    found = tomllib.loads(STATED.read_text()) if STATED.is_file() else {}
    return found.get("commands", []), found.get("counts", {}), found.get("missing", {})


def explained(reasons):
    """Returns the calls for which a reason is given."""
    return [name for reason, names in reasons.items() if reason != NO_REASON for name in names]


def lines_of(reason, names):
    """Returns the lines of a reason with its calls, which are in as few lines as have room for them."""
    quoted = ", ".join(f'"{it}"' for it in names)
    line = f'"{reason}" = [{quoted}]'
    if len(line) <= WIDTH:
        return [line]
    rows = textwrap.wrap(quoted + ",", WIDTH - 4, break_long_words=False, break_on_hyphens=False)
    return [f'"{reason}" = [', *(f"    {it}" for it in rows), "]"]


def write(run, counts, calls):
    *_, reasons = stated()
    lines = ["# Written by tools/check_counts.py --write; the reasons are written by hand.", ""]
    lines += ["commands = [", *(f"    {it!r}," for it in run), "]", "", "[counts]"]
    lines += [f'"{name}" = {count}' for name, count in counts.items()]
    for place, names in calls.items():
        given = reasons.get(place, {})
        kept = {reason: [it for it in names if it in its] for reason, its in given.items() if reason != NO_REASON}
        kept[NO_REASON] = [it for it in names if it not in explained(given)]
        lines += ["", f'[missing."{place}"]'] if names else []
        lines += [line for reason, its in kept.items() if its for line in lines_of(reason, its)]
    STATED.write_text("\n".join(lines) + "\n")


def faults(run, counts, calls):
    """Yields what differs from tools/counts.toml, and an empty text for each command, number and call that does not."""
    run_stated, numbers_stated, reasons = stated()
    for it in dict.fromkeys([*run_stated, *run]):
        same = it in run and it in run_stated
        yield "" if same else f"{it} is counted only by {'.ci/run' if it in run else 'tools/counts.toml'}"
    for name in {**numbers_stated, **counts}:
        now, then = counts.get(name, 0), numbers_stated.get(name, 0)
        yield "" if now == then else f"{name}: {now}, and {then} in tools/counts.toml"
    yield from faults_of_sweep()
    yield from faults_of_speed()
    every = len([*public_calls()])
    for place, names in calls.items():
        given = explained(reasons.get(place, {}))
        lacking = [it for it in names if it not in given]
        yield from (f"{it} is not in {place}, and tools/counts.toml gives no reason" for it in lacking)
        yield from (f"{it}, which is no call that {place} lacks: remove its name from tools/counts.toml" for it in given if it not in names)
        yield from (f"{it} has {count} reasons for {place} in tools/counts.toml" for it, count in Counter(given).items() if count > 1)
        yield from [""] * (every - len(lacking))


def main(arguments):
    os.chdir(ROOT)
    given = commands(), numbers(), missing()
    if arguments == ["--write"]:
        write(*given)
        return 0
    return results.report(faults(*given))


if __name__ == "__main__":
    sys.exit(main(sys.argv[1:]))
