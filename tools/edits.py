"""The must-fail edits of the crates: their positions, and the functions they change."""
import os
import re
import sys
import threading
from dataclasses import dataclass

import kit

FUNCTION = re.compile(r"( *)(?:pub(?:\([^)]*\))? |const |unsafe |extern \"C\" )*fn (\w+)")
TRAIT = r"(?:\w+::)*(\w+)(?:<(?:(?:\w+::)*(\w+))?.*>)?"
IMPL = re.compile(rf"( *)impl(?:<.*?>)? (?:{TRAIT} for )?&?(?:'\w+ )?(?:\w+::)*(\w+)")
CYCLE = re.compile(r"#\[cycle\((\w+)")
# The folders of a crate's mutants: those that the prover tries, those that a test alone rejects, and those that return the same results
# with more work, which a test counts.
TRIED, TOLD, SLOWER = "must-fail", "mutants", "slower"


def stop(why):
    sys.exit(f"{os.path.basename(sys.argv[0])}: {why}")


printing = threading.Lock()


def say(text):
    with printing:
        print(text, flush=True)


@dataclass(frozen=True)
class Function:
    """Where the prover's output speaks of a function: patterns of its module and its name, and its cycle of calls."""

    module: str
    name: str
    cycle: str | None

    def lines(self, crate, said):
        """Returns what the prover says of the function and its closures: their paths in the crate, a verdict each."""
        path = f"{self.module}(?:{self.name}|fn::{self.name}::\\S+)"
        return re.findall(rf"^fn {crate}::({path}): (.*)$", said, re.M)

    def __str__(self):
        return f"{'' if '(?:' in self.module else self.module}{self.name}".replace(r"\w*", "")


@dataclass(frozen=True)
class Pair:
    """What an edit replaces in a file, or in one function of it if that is named. `old` occurs there once."""

    path: str
    function: str
    old: str
    new: str

    def applied(self, text, place):
        return text[:place] + self.new + text[place + len(self.old) :]


def indent(row):
    return len(row) - len(row.lstrip(" "))


def header_above(rows):
    """Returns the index of the header of the function whose body contains the last row, or None.

    In rt fmt's layout a header is further left than its body, which begins after a row of the header's column that ends in
    `{`, and ends at a row `}` of that column.
    """
    for at in reversed(range(len(rows) - 1)):
        if FUNCTION.match(rows[at]) and indent(rows[at]) < indent(rows[-1]):
            beside = [it.strip() for it in rows[at:-1] if it.strip() and indent(it) == indent(rows[at])]
            return at if any(it.endswith("{") for it in beside) and "}" not in beside else None
    return None


def cycle_of(rows, header):
    """Returns the cycle that an attribute right above the function's header names, if there is one."""
    for row in reversed(rows[:header]):
        if found := CYCLE.search(row):
            return found[1]
        if not row.lstrip().startswith(("#[", "//")):
            return None
    return None


def function_below(path, rows, header):
    """Returns the function with this header in a file's rows, or None if it is a method of no known type."""
    name, cycle = FUNCTION.match(rows[header])[2], cycle_of(rows, header)
    if not indent(rows[header]):
        module = path.removeprefix("src/").removesuffix(".rt").replace("/", "::")
        return Function("" if module in ("lib", "main") else f"{module}::", name, cycle)
    impls = (IMPL.match(it) for it in reversed(rows[:header]) if indent(it) < indent(rows[header]))
    impl = next((it for it in impls if it), None)
    if not impl:
        return None
    # A method is named by its type, whose module need not be the file's. One of a trait is named like
    # NumberPartialEq::eq, and of a trait with an argument like ErrorFromAllocError::from, or `ExistsRowCallU8::answer`.
    _, trait, argument, owner = impl.groups()
    argument = argument[0].upper() + argument[1:] if argument else ""
    owner += rf"{trait}{argument}\w*" if trait else ""
    return Function(r"(?:\w+::)*", f"{owner}::{name}", cycle)


def function_of(path, text, pair, place):
    """Returns the function whose body a pair changes in a file's text, or None if it does not change one body only."""
    end = text.find("\n", place + indent(pair.old))
    rows = text[: end if end >= 0 else len(text)].split("\n")
    begins_body = FUNCTION.match(rows[-1]) and pair.old.endswith("{") and pair.new.startswith(pair.old)
    header = len(rows) - 1 if begins_body else header_above(rows)
    return function_below(path, rows, header) if header is not None and path.startswith("src/") else None


def function_at(path, text, line):
    """Returns the function that a line belongs to, which may be in its body, its header or an attribute above that."""
    rows = text.split("\n")
    at = line - 1
    while rows[at].lstrip().startswith("#["):
        at += 1
    header = at if FUNCTION.match(rows[at]) else header_above(rows[: at + 1])
    return function_below(path, rows, header) if header is not None else None


def pairs_of(edit):
    """Yields the pairs of an edit's text. `function:` counts for the next pair only."""
    path = old = function = ""
    for row in edit.split("\n"):
        if row.startswith("file: "):
            path = row.removeprefix("file: ").strip()
        elif row.startswith("function: "):
            function = row.removeprefix("function: ").strip()
        elif row.startswith("old: "):
            old = row.removeprefix("old: ")
        elif row.startswith("new:"):
            yield Pair(path, function, old, row.removeprefix("new:").removeprefix(" "))
            old = function = ""


def place_of(text, pair):
    """Returns the index of a pair's old text in a file, or None if that, or the function that is named, does not have it once."""
    bodies = [(0, len(text))]
    if pair.function:
        bodies = [it.span() for it in re.finditer(rf"^( *)(?:\w.* )?fn {pair.function}\b(?s:.*?)\n\1}}$", text, re.M)]
    if len(bodies) != 1 or not pair.old or text.count(pair.old, *bodies[0]) != 1:
        return None
    return text.index(pair.old, *bodies[0])


def edited(edit, folder):
    """Returns the contents of the files that an edit changes, by their path in the crate, and why it can't be applied, if it can't.

    This is what rt reads in it (tools/test_judge.py compares them), so that the tools which try no proof need no kit for it. rt knows no
    row `function:`, so only mutants that a test rejects have one.
    """
    texts, unchanged = {}, {}
    for pair in pairs_of(edit):
        path, file = pair.path, os.path.join(folder, pair.path)
        if not path.startswith(("src/", "specs/", "proofs/")) or os.path.normpath(path) != path or not os.path.isfile(file):
            return None, f"there is no file {path!r}"
        if path not in texts:
            with open(file, encoding="utf-8") as it:
                texts[path] = unchanged[path] = it.read()
        place = place_of(texts[path], pair)
        if place is None:
            return None, f"{pair.old!r} is not in {pair.function or path} once"
        texts[path] = pair.applied(texts[path], place)
    return (texts, None) if texts != unchanged else (None, "it changes nothing")


def functions_of(edit, folder):
    """Returns the functions that an edit's text changes, each once; None stands for a pair outside of bodies."""
    texts, found = {}, []
    for pair in pairs_of(edit):
        if pair.path not in texts:
            with open(f"{folder}/{pair.path}", encoding="utf-8") as it:
                texts[pair.path] = it.read()
        text, place = texts[pair.path], place_of(texts[pair.path], pair)
        found.append(None if place is None else function_of(pair.path, text, pair, place))
        texts[pair.path] = text if place is None else pair.applied(text, place)
    return list(dict.fromkeys(found))


def read(edit, folder):
    """Returns the functions that an edit file changes, and why it can't be tried, if it can't."""
    _, fault = kit.rt.read_edit(edit, folder)
    if fault:
        return [], fault
    with open(edit, encoding="utf-8") as it:
        text = it.read()
    functions = functions_of(text, folder)
    if sum(len(functions_of(part, folder)) for part in re.split(r"^#.*", text, flags=re.M)) > len(functions):
        return functions, "two edits of one function, each with its words: each needs a file of its own"
    if len(functions) > 1 and None in functions:
        return functions, "a pair stands in no function's body: such an edit needs a file of its own"
    cycles = [it.cycle for it in functions if it and it.cycle]
    if len({*cycles}) < len(cycles):
        return functions, "two of its functions are in one cycle of calls: each needs a file of its own"
    return functions, None


def files_of(folder, *kinds):
    """Returns the files of a crate's mutants in these folders, or in all."""
    return [file for kind in kinds or (TRIED, TOLD, SLOWER) for file in sorted((folder / kind).glob("*.edit"))]


def edits_below(top, names):
    """Returns the crates below a folder, the lowest first, each with the edits that can be tried; and the faults.

    If names are given, the edits of other crates are left out.
    """
    crates, faults = [], []
    # (The copies that a measurement made are in a folder out, and not crates of the repository.)
    for crate in [it for it in kit.rt.rtlib.crates_below(top) if "/out/" not in os.path.relpath(it.folder, top)]:
        good, bad = kit.rt.edits_of(crate) if not names or crate.name in names else ([], [])
        why = {it: read(it, crate.folder)[1] for it in good}
        why |= dict.fromkeys(bad, "this is no name or place for an edit")
        faults += [f"{crate.name}/{os.path.basename(it)}: BAD EDIT: {fault}" for it, fault in why.items() if fault]
        crates.append((crate, [it for it in good if not why[it]]))
    faults += [f"crates.txt names no crate {it}" for it in {*names} - {crate.name for crate, _ in crates}]
    if not any(edits for _, edits in crates):
        faults.append("there is no edit to try")
    return crates, faults
