#!/usr/bin/env python3
"""Lists the public items that lack a part of their doc comment, the files, contracts and tests that docs/PROOFS.md names and that do
not exist, and its promises without one, the types in docs/API.md that no call of that name returns, and the sources that construct
`OutOfMemory` themselves.

    tools/check_docs.py [CRATE..]     of these crates, or of the four that users name; the last line is 'N passed, M failed'

Public are the names that src/lib.rt re-exports, all in its `pub mod` files, and the public functions of such types. Each item, each
variant and each public field has a comment. A function's comment has a heading `# Complexity` (or its older name `# Cost`), and
`# Errors` if and only if it returns a Result. One that users call has `# Examples` with quoted code or rows: a function that `jsonb`
re-exports, and each public function of a type or trait that it re-exports. A law, in laws.rt, states only its theorem.

A contract allows `OutOfMemory` whether or not an allocation failed, so only the conversions of failed allocations construct it.
"""

import re
import sys
from dataclasses import dataclass
from pathlib import Path

import results

ROOT = Path(__file__).resolve().parent.parent
CRATES = ["jsonb_doc", "jsonb_keypath", "jsonb_raw", "jsonb"]
USED = "jsonb"

# The one module that constructs `OutOfMemory`, from the standard library's two errors, and the one that constructs an `AllocError`, from
# the error of `read_name` and `read_quoted`.
CONVERSIONS = {"jsonb_doc/src/error.rt": 2, "jsonb/src/parser/token.rt": 1}

ITEM = re.compile(r"pub (?:const |unsafe )*(fn|struct|enum|trait|const) (\w+)")
METHOD = re.compile(r"    (?:pub )?(?:const |unsafe )*(fn|const) (\w+)")
MEMBER = re.compile(r"    (pub )?(\w+)(:|,|\(| \{)")
HEAD = re.compile(r"\n(?:impl|pub trait)(?:<[^>]*>)? (\w+)|\n *(?:pub )?fn (\w+)([^{;]*?)(?=\n\s+(?:ensures|requires|\{)| \{)")
LIFETIME = re.compile(r"<'(?!static)\w+(?:, Global)?>|'(?!static)\w+ ")
OWNER = re.compile(r"(?:pub )?(impl|trait)(?:<[^>]*>)? (?:\w+::)*(\w+)(.*)")


@dataclass
class Item:
    place: str
    name: str
    kind: str
    comment: list
    returns_result: bool


def exported(crate):
    """The names and the modules that a crate's lib.rt re-exports."""
    text = (crate / "src/lib.rt").read_text()
    names = set()
    for listed in re.findall(r"pub use [\w:]+::(\{[^}]*\}|\w+);", text):
        names.update(re.findall(r"\w+", listed))
    return names, set(re.findall(r"pub mod (\w+);", text))


def is_called_by_users(item):
    """Whether a function, or the type of a method, is among the names that `jsonb` re-exports."""
    return item.kind == "fn" and item.name.split("::")[0] in exported(ROOT / "crates" / USED)[0]


def has_example(comment):
    """Whether quoted code or a table of rows follows the heading."""
    examples = comment[comment.index("# Examples"):] if "# Examples" in comment else []
    return any(line.startswith(("```rust ", "<!-- rows: ")) for line in examples)


def sources(crate):
    """The files of a crate but its tests, each with the module at the top that it is in."""
    for path in sorted((crate / "src").rglob("*.rt")):
        parts = path.relative_to(crate / "src").with_suffix("").parts
        if "tests" not in parts:
            yield path, parts[0]


def comment_above(lines, at):
    """The doc comment above a line, before the attributes between them."""
    at -= 1
    while at >= 0 and not lines[at].startswith(("    ///", "///")) and lines[at].strip():
        at -= 1
    found = []
    while at >= 0 and lines[at].strip().startswith("///"):
        found.append(lines[at].strip()[3:].strip())
        at -= 1
    return found[::-1]


def returns_result(lines, at):
    """Whether the function at a line returns a Result: its head ends before the first clause."""
    head = re.split(r"\n\s+(?:requires|ensures)|\{", "\n".join(lines[at:at + 12]))[0]
    return re.search(r"-> (fmt::)?Result", head) is not None


def methods(lines, at):
    """The lines of the functions and constants of the impl or trait that begins at a line."""
    is_trait = "trait" in OWNER.match(lines[at])[1]
    while lines[at] != "}":
        if METHOD.match(lines[at]) and (is_trait or lines[at].startswith("    pub ")):
            yield at
        at += 1


def members(lines, at):
    """The lines of the public fields, or of the variants, of the type that begins at a line."""
    is_enum = lines[at].startswith("pub enum")
    while lines[at] != "}" and not lines[at].endswith("}"):
        found = MEMBER.match(lines[at])
        if found and (is_enum or found[1]):
            yield at
        at += 1


def items(path, is_public):
    """The public items of a file; `is_public` decides which names are."""
    lines = path.read_text().split("\n#[cfg(test)]\nmod tests {")[0].splitlines()

    def item(at, name, kind):
        place = f"{path.relative_to(ROOT)}:{at + 1}"
        return Item(place, name, kind, comment_above(lines, at), kind == "fn" and returns_result(lines, at))

    for at, line in enumerate(lines):
        found, owner = ITEM.match(line), OWNER.match(line)
        if found and is_public(found[2]):
            yield item(at, found[2], found[1])
            if found[1] in ("struct", "enum"):
                yield from (item(at, f"{found[2]}.{MEMBER.match(lines[at])[2]}", "member") for at in members(lines, at))
        if owner and is_public(owner[2]) and not owner[3].startswith(" for"):
            for at in methods(lines, at):
                yield item(at, f"{owner[2]}::{METHOD.match(lines[at])[2]}", METHOD.match(lines[at])[1])


def public_items(crate):
    names, modules = exported(crate)
    for path, module in sources(crate):
        yield from items(path, lambda name: name in names or module in modules)


def lacks(item):
    """What the comment of an item lacks, or has too much."""
    if not item.comment:
        yield "a comment"
    if item.kind != "fn" or "/laws.rt" in item.place:
        return
    if "# Complexity" not in item.comment and "# Cost" not in item.comment:
        yield "# Complexity"
    if item.returns_result and "# Errors" not in item.comment:
        yield "# Errors"
    if not item.returns_result and "# Errors" in item.comment:
        yield "a Result for its # Errors"
    if is_called_by_users(item) and not has_example(item.comment):
        yield "# Examples"


def named_places():
    """The files of specs/ and proofs/ that docs/PROOFS.md names, each in the crate of its part of the page, or in the one it says."""
    crate = ""
    for at, line in enumerate((ROOT / "docs/PROOFS.md").read_text().splitlines()):
        heading = re.match(r"## `(\w+)`", line)
        crate = heading[1] if heading else crate
        for owner, place in re.findall(r"`(?:(\w+)/)?((?:specs|proofs)/[\w/]+)`", line):
            yield f"docs/PROOFS.md:{at + 1}", ROOT / "crates" / (owner or crate) / place


SPECS = re.compile(r"^ *(?:ghost )?use Rattle\.(jsonb\w*)\.specs\.((?!declared|AnyBytes|Representation)[\w.]+)\.\{", re.M)


def trusted():
    """The files of specs/ that the contracts of `Selector` use, and those that such files use, as docs/PROOFS.md names them. It lists
    none of AnyBytes and Representation."""
    selector = (ROOT / "crates/jsonb/src/selector.rt").read_text()
    left, found = [selector[selector.index("impl<'a> Selector<'a>") :].split("pub fn ")[0]], set()
    for text in left:
        for crate, place in SPECS.findall(text):
            name = f"{crate}/specs/{place.replace('.', '/')}"
            if name not in found:
                found.add(name)
                left.append((ROOT / "crates" / f"{name}.antt").read_text())
    return found


def faults_of_trusted():
    """For each such file whether docs/PROOFS.md names it, and for each that it names for the `Selector` whether that uses it."""
    listed = (ROOT / "docs/PROOFS.md").read_text().partition("contracts of the `Selector` use ")[2].partition("\n\n")[0]
    named, used = {*re.findall(r"`(\w+/specs/\w+)`", listed)}, trusted()
    yield from (f"docs/PROOFS.md does not name {it}, which the Selector uses" for it in sorted(used - named))
    yield from (f"docs/PROOFS.md names {it}, which the Selector does not use" for it in sorted(named - used))
    yield from [""] * len(named & used)


def promised_names():
    """The names of the contracts in the tables of docs/PROOFS.md, each with its line, the crate of its part of the page, and whether it
    is a clause's."""
    crate = ""
    for at, line in enumerate((ROOT / "docs/PROOFS.md").read_text().splitlines()):
        heading = re.match(r"## (?:`(\w+)`)?", line)
        crate = heading[1] if heading else crate
        if line.startswith("| ") and crate:
            cell = line.rstrip(" |").rpartition(" | ")[2]
            clauses = "".join(re.findall(r"clauses? (?:named after the result )?[(]?((?:`\w+`(?:, |[)], and | and )?)+)", cell))
            for name in re.findall(r"`([\w:]+(?:_\.\.)?)`", cell):
                yield f"docs/PROOFS.md:{at + 1}", crate, name, f"`{name}`" in clauses


def contract_names(crate):
    """The functions, types and ghost members of a crate, and the names of its clauses."""
    text = "\n".join(path.read_text() for path, _ in sources(ROOT / "crates" / crate))
    return {*re.findall(r"\b(?:fn|struct|enum|trait) (\w+)", text)}, {*re.findall(r"\bensures (\w+)\b", text)}, text


def faults_of_promises():
    """For each name in the tables of docs/PROOFS.md what is wrong with it, or nothing."""
    known = {}
    for line, crate, name, is_clause in promised_names():
        functions, clauses, text = known.setdefault(crate, contract_names(crate))
        last = name.rpartition("::")[2]
        is_there = last in clauses if is_clause else last in functions or last in clauses or re.search(rf"\bghost {last}\b", text)
        if last.endswith("_.."):
            is_there = any(it.startswith(last[:-2]) for it in functions)
        elif name.startswith("laws::"):
            is_there = re.search(rf"^pub(?:\(crate\))? fn {last}\b", (ROOT / "crates" / crate / "src/laws.rt").read_text(), re.M)
        yield "" if is_there else f"{line} names {name}, which {crate} does not have"


def faults_of_tests():
    """For each promise of docs/PROOFS.md that is only tested what is wrong with the files of the tests that it names, or nothing."""
    promises = (ROOT / "docs/PROOFS.md").read_text().partition("\n## Only tested\n")[2]
    for title, text in re.findall(r"^- \*\*(.*?):?\*\*((?:.*\n)(?:  .*\n)*)", promises, re.M):
        named = re.findall(r"\b(?:bindings|crates|docs|tools)/[\w./]*\w", text)
        lost = [it for it in named if not (ROOT / it).exists()]
        yield f"docs/PROOFS.md names no test of {title}" if not named else ", ".join(f"docs/PROOFS.md: {title}: no {it}" for it in lost)


def returned_types():
    """For each public function's name, alone and after its type and `::`, the types that functions of that name return."""
    found = {}
    for name in CRATES:
        for path, _ in sources(ROOT / "crates" / name):
            owner = ""
            for head in HEAD.finditer(path.read_text()):
                owner = head[1] or owner
                if head[2]:
                    for key in (head[2], f"{owner}::{head[2]}"):
                        found.setdefault(key, set()).add(plain_type(head[3].rpartition("->")[2]))
    return found


def plain_type(text):
    """A type without lifetimes and `Global`: what is in a `Result`, and another type followed by API.md's words."""
    text = LIFETIME.sub("", " ".join(text.split()))
    inner = re.fullmatch(r"Result<(.*), \w+>", text)
    return inner[1] if inner else f"{text}, no Result"


def given_types():
    """The calls of docs/API.md in tables whose second column is `Returns`, each with its line and that type."""
    is_given = False
    for at, line in enumerate((ROOT / "docs/API.md").read_text().splitlines()):
        cells = [cell.strip() for cell in re.split(r"(?<!\\)\|", line)]
        if not line.startswith("|"):
            is_given = False
        elif "Returns" in cells:
            is_given = cells.index("Returns") == 2
        elif is_given and "`" in cells[2]:
            for call in re.findall(r"`(\w+(?:::\w+)?)\(", cells[1]):
                yield f"docs/API.md:{at + 1}", call, cells[2].replace("`", "")


# A module of tests, in this file or in another one.
TESTS = re.compile(r"^#\[cfg\(test\)\]\n(?:pub(?:\(crate\))? )?mod \w+(?:;| \{.*?^\})", re.M | re.S)
# The variant outside patterns, by any name of its type, its import, and an `AllocError` that is neither a type nor converted.
CONSTRUCTS = re.compile(
    r"::OutOfMemory\b(?!\)* =>)|^ *(?:pub )?use .*(?:\bOutOfMemory\b|Error::\*)|(?<!: )\bAllocError\b(?!>|::from\b)", re.M
)


def constructs_out_of_memory(text):
    """How often code, without its tests, constructs `OutOfMemory` or an `AllocError`."""
    code = re.sub(r"^ *//.*|^ *(?:pub )?use std::.*", "", TESTS.sub("", text), flags=re.M)
    return len(CONSTRUCTS.findall(code))


def out_of_memory_places():
    """The sources, except tests, that construct `OutOfMemory` or an `AllocError`, or should, and how often."""
    counts = dict.fromkeys(CONVERSIONS, 0)
    for path in sorted((ROOT / "crates").glob("*/src/**/*.rt")):
        place = path.relative_to(ROOT / "crates")
        if not {"tests", "tests.rt"} & set(place.parts):
            counts[str(place)] = constructs_out_of_memory(path.read_text())
    return {place: count for place, count in counts.items() if count or place in CONVERSIONS}


def faults(crates):
    """For each thing that is looked at what is wrong with it, or nothing."""
    for name in crates:
        for item in public_items(ROOT / "crates" / name):
            missing = ", ".join(lacks(item))
            yield missing and f"{item.place} {item.name} lacks {missing}"
    for line, place in named_places():
        is_there = place.is_dir() or place.with_suffix(".antt").is_file()
        yield "" if is_there else f"{line} names {place.relative_to(ROOT)}, which is not there"
    yield from faults_of_promises()
    yield from faults_of_tests()
    yield from faults_of_trusted()
    types = returned_types()
    for line, call, given in given_types():
        has = types.get(call, set())
        yield "" if given in has else f"{line} gives {call} as {given}, which is {' or '.join(sorted(has)) or 'no public call'}"
    for place, count in out_of_memory_places().items():
        wanted = CONVERSIONS.get(place, 0)
        yield "" if count == wanted else f"crates/{place} constructs OutOfMemory {count} times, not {wanted}"


def main(arguments):
    return results.report(faults(arguments or CRATES))


if __name__ == "__main__":
    sys.exit(main(sys.argv[1:]))
