#!/usr/bin/env python3
"""Finds a witness of each mutant: a test that passes, and fails with the mutant.

  witness.py                     compares the mutants with tools/witnesses.toml; the last line is 'N passed, M failed'
  witness.py --run [NAME..]      the same, and runs the test that the file gives for each mutant, which must fail
  witness.py --write [NAME..]    runs all tests with the mutants that have none, and writes those that fail to the file; with --slow also
                                 tests that take long with each mutant
  witness.py --sort              moves each mutant to the folder that it belongs to, mutants/, slower/ or must-fail/, and there to its
                                 file: in must-fail/ its own, elsewhere that of its source file

NAME.. are the crates whose tests are run.

The expected results of tests come from docs/, and the body that a mutant replaces is proved and passes them. So a mutant with which a
test fails returns another result. If the contracts determine the result (`laws::results_are_determined`), no proof of the mutant
exists: with one, all functions would meet their contracts, and the test would pass. tools/witnesses.toml lists the tests of such
results. The mutants with which one of them fails are in mutants/, and the prover does not try them. The file also lists tests that count
work. A mutant with which one of those fails returns the same results with more work, so it may have a proof: it is in slower/. All others
are in must-fail/, with those that the file keeps there. The file gives the reason if no test fails.

This runs in a copy of the repository that has all mutants: `if jsonb_doc::witness::is(17) { return { .. }; }` precedes the body that
mutant 17 replaces. tools/witness/switch.c says which one runs: a test's process forks at each of these, once, and its child goes on with
the mutant. So each crate's tests are built once, by rt try, which proves nothing. A mutant outside a function's body has no switch.
"""
import argparse
import os
import re
import shutil
import subprocess
import sys
import tempfile
import tomllib
from concurrent.futures import ThreadPoolExecutor
from dataclasses import dataclass, field
from pathlib import Path

sys.dont_write_bytecode = True
import check_counts
import edits
import group_edits
import lanes
import results

sys.path.insert(0, str(Path(__file__).resolve().parent / "fuzz"))
import trees

TOP = Path(__file__).resolve().parent.parent
STATED = TOP / "tools/witnesses.toml"
# (The name of its part in Rattle does not end in .rt, since rt ci reads such files only in crates.)
PARTS = TOP / "tools/witness"
NO_REASON = "no reason yet"
# The line of tools/witnesses.toml after which --write writes.
WRITTEN = "# Written by tools/witness.py --write; the reasons are written by hand."
# Results that no contract determines: errors on bytes that do not decode, and failed allocations, which the sanitizer reports. A test
# that crashes has not failed in an assertion.
UNDETERMINED = re.compile(r"InvalidJsonb|UnsupportedNumber|OutOfMemory|AllocError|AddressSanitizer|^status \d")
DECODING_ERROR = re.compile(r"[Ee]rror: (?:InvalidJsonb|UnsupportedNumber)")
# Rows of calls that state the result on all bytes.
EXACT = re.compile(r"check |depth ")
# Rows of calls that do not return a document, so that each form of their documents determines the result.
ANY_FORM = re.compile(r"(?:array_overlap|compare|contains) ")
# A document in a row.
DOCUMENT = re.compile(r"\b[248]0(?:[0-9a-f]{2}){3,}\b")
# The longest text of an assertion that is kept.
SHOWN = 90
# A test has this many seconds for all mutants that it reaches, while the gate proves the crates.
SECONDS = 1800
# Tests that take long with each mutant: of deep documents and expressions, of each call on each damaged document, and of a long array.
SLOW = re.compile(r"\w*(?:deep_|deeper_|any_depth)|all_calls_return_|leaves_of_a_long_array_")
TEST = re.compile(r"^( *)#\[test\]\n(?: *#\[.*\n)* *fn (\w+)", re.M)


@dataclass(frozen=True)
class Mutant:
    crate: str
    words: str
    edit: group_edits.Edit = field(compare=False)
    # The folder and the file that it is in.
    kind: str = field(compare=False)
    file: str = field(compare=False)

    def __str__(self):
        return f"{self.crate}: {self.words}"


def mutants(top):
    """Returns the mutants of all crates, the lowest crate first."""
    found = []
    for crate in check_counts.crate_names():
        for file in edits.files_of(top / "crates" / crate):
            found += [Mutant(crate, it.words, it, file.parent.name, file.name) for it in group_edits.read_edits(file, top / "crates" / crate)]
    return found


# ---- the switch


def body_with(rows, changed):
    """Returns the index of the header of the function whose body has a row, and where that body begins and ends, or None."""
    header = changed if edits.FUNCTION.match(rows[changed]) else edits.header_above(rows[: changed + 1])
    if header is None:
        return None
    beside = [at for at in range(header, len(rows)) if rows[at].strip() and edits.indent(rows[at]) == edits.indent(rows[header])]
    first = next(at for at in beside if rows[at].endswith("{")) + 1
    return header, first, next(at for at in beside if at >= first and rows[at].strip() == "}")


def changed_row(text, other):
    """Returns the index of the first row that differs in two versions of a file."""
    others = other.split("\n")
    return next(at for at, row in enumerate(text.split("\n")) if row != others[at])


def mutated_body(text, other):
    """Returns the row at which the body begins that differs in two versions of a file, and its rows in the second.

    Returns None if anything else differs.
    """
    rows, others = text.split("\n"), other.split("\n")
    found = body_with(rows, changed_row(text, other))
    if not found:
        return None
    header, first, last = found
    after = len(rows) - last
    is_same = rows[:header] == others[:header] and rows[header + 1 : first] == others[header + 1 : first] and rows[last:] == others[-after:]
    # (What an edit adds to the row of the header begins the body.)
    begun = others[header].removeprefix(rows[header])
    return (first, [begun, *others[first:-after]]) if is_same and others[header].startswith(rows[header]) else None


def place_of(mutant, top):
    """Returns the file of a mutant, the row at which its body begins, and the mutant's rows; or None if it changes no one body."""
    folder = top / "crates" / mutant.crate
    texts, fault = edits.edited(mutant.edit.text, folder)
    if fault:
        edits.stop(f"{mutant}: {fault}")
    [(path, other), *more] = texts.items()
    found = not more and path.startswith("src/") and mutated_body((folder / path).read_text(), other)
    return (folder / path, *found) if found else None


def add_mutants(found, top):
    """Puts mutants into a copy of the repository, and returns those with a switch by their numbers."""
    numbered, put = {}, {}
    for mutant in found:
        place = place_of(mutant, top)
        if place:
            path, first, body = place
            number, switch = len(numbered) + 1, "crate" if mutant.crate == "jsonb_doc" else "jsonb_doc"
            numbered[number] = mutant
            rows = [f"if {switch}::witness::is({number}) {{ return {{", *body, "}; }"]
            put.setdefault(path, {}).setdefault(first, []).extend(rows)
    for path, places in put.items():
        rows = path.read_text().split("\n")
        for first in sorted(places, reverse=True):
            rows[first:first] = places[first]
        path.write_text("\n".join(rows))
    return numbered


def add_switch(top, rejected, tests):
    """Adds the switch to jsonb_doc, and jsonb_doc to what each other crate uses. `tests` has the test of each mutant, if it has one."""
    rows = (top / "crates.txt").read_text().splitlines()
    (top / "crates.txt").write_text("".join(f"{it}{'' if re.search('(?:^|: | )jsonb_doc(?= |:|$)', it) else ' jsonb_doc'}\n" for it in rows))
    doc = top / "crates/jsonb_doc"
    (doc / "c").mkdir()
    text = (PARTS / "switch.c").read_text().replace("@REJECTED@", str(rejected))
    text = text.replace("@TESTS@", ", ".join(f'"{it}"' if it else "NULL" for it in tests))
    (doc / "c/switch.c").write_text(text)
    shutil.copy(PARTS / "switch.rt.in", doc / "src/witness.rt")
    library = doc / "src/lib.rt"
    library.write_text(re.sub(r"^(?=mod \w+;)", "pub mod witness;\n", library.read_text(), count=1, flags=re.M))


# ---- running


def copy_crates(top, is_left_out):
    """Copies the crates, without the tests for which `is_left_out` holds: of a crate, and a function's name."""
    top.mkdir()
    for name in ("crates.txt", "HANDLES"):
        shutil.copy(TOP / name, top)
    shutil.copytree(TOP / "crates", top / "crates", ignore=lambda at, names: [it for it in names if it == "out"])
    for path in (top / "crates").rglob("*.rt"):
        crate, text = path.relative_to(top / "crates").parts[0], path.read_text()
        marked = TEST.sub(lambda it: f"{it[1]}#[ignore]\n{it[0]}" if is_left_out(crate, it[2]) else it[0], text)
        if marked != text:
            path.write_text(marked)


def run_tests(crate, top):
    """Builds and runs a crate's tests without a proof, and returns whether they passed, and the output."""
    # (One step for the interpreter: the compiled tests are enough.)
    words = [sys.executable, TOP / "tools/kit.py", "try", "--test", "--steps", "1", "--seconds", str(SECONDS)]
    how = {"cwd": top / "crates" / crate, "env": {**os.environ, "RT_ALLOW_C": "1"}, "errors": "replace"}
    ran = subprocess.run(words, stdout=subprocess.PIPE, stderr=subprocess.STDOUT, stdin=subprocess.DEVNULL, text=True, **how)
    return not ran.returncode, ran.stdout


def assertion_of(said):
    """Returns what a failed assertion says: its own words, which name a row, or what it compares."""
    said = re.sub(r"^assertion(?: `left .. right`)? failed:? ?", "", said.strip())
    words = said.partition("\n  left:")[0] or " ".join(said.split())
    return words.partition("\n")[0][:SHOWN]


def witness_in(crate, text):
    """Returns the witness that the note of a failed child is."""
    said, status, test = re.fullmatch(r"(.*)\nstatus (\d+): (\S+)", text, re.S).groups()
    return f"{crate} {test}: {assertion_of(said) or f'status {status}'}"


def crate_and_test(witness):
    """Returns the crate and the name of the test that a witness names."""
    return witness.partition(": ")[0].split(" ")


def run_all(found, given, room, crates, in_all, with_slow_tests):
    """Runs the tests of crates with each mutant, and returns the witnesses by mutant. `given` has the known ones.

    A mutant that has one is run in that test alone; the others are run in all tests, if `in_all`. Then the crates are run one after
    the other, so that a witness is in the first of them. Otherwise only the tests that are witnesses are built.
    """
    top, rejected = room / "repository", room / "rejected"
    rejected.mkdir()
    named = {(crate, test.rpartition("::")[2]) for crate, test in map(crate_and_test, given.values())}
    is_slow = lambda crate, test: not with_slow_tests and bool(SLOW.match(test))
    copy_crates(top, is_slow if in_all else lambda crate, test: (crate, test) not in named)
    numbered = add_mutants([it for it in found if in_all or it in given], top)
    add_switch(top, rejected, [crate_and_test(given[it])[1] if it in given else None for it in numbered.values()])
    witnesses = {}
    with ThreadPoolExecutor(1 if in_all else lanes.lanes_here()) as pool:
        for crate, (has_passed, said) in zip(crates, pool.map(lambda it: run_tests(it, top), crates)):
            if not has_passed:
                edits.stop(f"{crate}: its tests do not pass in the copy, without a mutant:\n{said[-3000:]}")
            # (Other crates may be running: what is known of a mutant says in which one its test is.)
            of = lambda it: crate_and_test(given[it])[0] if it in given else crate
            witnesses |= {it: witness_in(of(it), note) for it, note in notes_of(rejected, numbered).items() if it not in witnesses}
            print(f"{crate}: {len(witnesses)} mutants have failed a test", flush=True)
    return witnesses


def notes_of(rejected, numbered):
    """Returns what the switch noted of each mutant that a test rejected."""
    notes = ((mutant, rejected / str(number)) for number, mutant in numbered.items())
    return {mutant: note.read_text(errors="replace") for mutant, note in notes if note.exists()}


# ---- the file


@dataclass(frozen=True)
class Stated:
    """What tools/witnesses.toml states."""

    # By crate and mutant: the test that fails with it; or why none does.
    witness: dict
    reason: dict
    # The tests whose results the contracts determine, and a pattern of those of their rows of which that is not so, or an empty text.
    determined: dict
    # The mutants of each crate that the prover has to reject in any case.
    kept: dict
    # The tests that count work.
    counted: dict = field(default_factory=dict)

    def witness_of(self, mutant):
        return self.witness.get(mutant.crate, {}).get(mutant.words)

    def reason_of(self, mutant):
        return self.reason.get(mutant.crate, {}).get(mutant.words)

    def is_determined(self, witness):
        """Returns whether the contracts determine the result by which a test fails."""
        test, _, text = witness.partition(": ")
        other = self.determined.get(test)
        if other is None or other and re.search(other, text):
            return False
        # (If all rows are of documents that decode, an error that ends the test is not among their results.)
        if not other and DECODING_ERROR.fullmatch(text):
            return True
        return bool(EXACT.match(text)) or not UNDETERMINED.search(text) and has_canonical_documents(crate_and_test(witness)[0], text)

    def is_counted(self, witness):
        """Returns whether a test counts more work with a mutant, and nothing else is known to be wrong with it."""
        return bool(witness) and witness.partition(": ")[0] in self.counted

    def folder_of(self, mutant):
        """Returns the folder that a mutant belongs to."""
        if self.is_counted(self.witness_of(mutant)):
            return edits.SLOWER
        return edits.TRIED if self.is_for_prover(mutant) else edits.TOLD

    def is_for_prover(self, mutant):
        """Returns whether the prover has to reject a mutant, since no witness shows that it has no proof, or in any case."""
        witness = self.witness_of(mutant)
        may_fail_to_allocate = re.search("OutOfMemory|AllocError", mutant.edit.text)
        return mutant.words in self.kept.get(mutant.crate, ()) or bool(may_fail_to_allocate) or not witness or not self.is_determined(witness)


def has_canonical_documents(crate, text):
    """Returns whether each document in a row decodes, and is canonical unless any form will do. The text may be the beginning of the row."""
    rows = check_counts.source(crate).splitlines() if len(text) == SHOWN else []
    row = next((it for it in rows if it.replace("\\t", "\t").startswith(text)), text)
    try:
        return all(trees.encode(trees.decode(it)) == it or ANY_FORM.match(text) for it in map(bytes.fromhex, DOCUMENT.findall(row)))
    except trees.Invalid:
        return False


def stated():
    found = tomllib.loads(STATED.read_text()) if STATED.is_file() else {}
    return Stated(*(found.get(it, {}) for it in ("witness", "reason", "determined", "prover", "counted")))


def quoted(text):
    text = text.replace("\\", "\\\\").replace('"', '\\"')
    return '"' + re.sub(r"[\0-\x1f\x7f]", lambda it: f"\\u{ord(it[0]):04x}", text) + '"'


def write(found, witnesses):
    """Writes the part of tools/witnesses.toml that follows what is written by hand."""
    reasons = stated().reason
    lines = [STATED.read_text().partition(WRITTEN)[0] + WRITTEN]
    for crate in dict.fromkeys(it.crate for it in found):
        own = [it for it in found if it.crate == crate]
        lines += ["", f"[witness.{crate}]", *(f"{quoted(it.words)} = {quoted(witnesses[it])}" for it in own if it in witnesses)]
        silent = [it for it in own if it not in witnesses]
        given = reasons.get(crate, {})
        lines += ["", f"[reason.{crate}]"] if silent else []
        lines += [f"{quoted(it.words)} = {quoted(given.get(it.words, NO_REASON))}" for it in silent]
    STATED.write_text("\n".join(lines) + "\n")


def tests_of(crate):
    """Returns the names of a crate's test functions."""
    return {*check_counts.TEST.findall(check_counts.source(crate))}


def fault_of(mutant, given, tests, top):
    """Returns what is wrong with what the file states of a mutant, or an empty text."""
    witness, reason = given.witness_of(mutant), given.reason_of(mutant)
    if witness and reason:
        return f"{mutant}: has a test and a reason"
    if witness and not place_of(mutant, top):
        return f"{mutant}: changes something other than one function's body, so it has no switch, and no test runs with it"
    folder = given.folder_of(mutant)
    if mutant.kind != folder and (mutant.kind != edits.TRIED or folder == edits.SLOWER):
        return f"{mutant}: belongs to {folder}/: tools/witness.py --sort"
    if mutant.kind == edits.TRIED and mutant.file != mutant.edit.file_name():
        return f"{mutant}: belongs to a file of its own, {mutant.edit.file_name()}, and not to {mutant.file}: tools/witness.py --sort"
    if witness:
        crate, name = crate_and_test(witness)
        return "" if name.rpartition("::")[2] in tests.get(crate, ()) else f"{mutant}: there is no test {name} of {crate}"
    return "" if reason and reason != NO_REASON else f"{mutant}: no test fails with it, and tools/witnesses.toml gives no reason"


def faults(found):
    """Yields what is wrong with tools/witnesses.toml, and an empty text for each mutant with which nothing is."""
    given = stated()
    tests = {crate: tests_of(crate) for crate in check_counts.crate_names()}
    for it in found:
        yield fault_of(it, given, tests, TOP)
    known = {(it.crate, it.words) for it in found}
    named = [(crate, words) for part in (given.witness, given.reason, given.kept) for crate, its in part.items() for words in its]
    for crate, words in named:
        if (crate, words) not in known:
            yield f"{crate}: tools/witnesses.toml has {words!r}, which is no mutant"
    for test in [*given.determined, *given.counted]:
        crate, name = crate_and_test(test)
        if name.rpartition("::")[2] not in tests.get(crate, ()):
            yield f"tools/witnesses.toml has {test!r}, which is no test"
    for it in found:
        if sum(it.crate == other.crate and it.words == other.words for other in found) > 1:
            yield f"{it}: two mutants have these words"


def known_witnesses(found):
    given = stated()
    return {it: given.witness_of(it) for it in found if given.witness_of(it)}


def faults_of_run(found, witnesses, lost):
    """Yields what is wrong with the witnesses that were found, and an empty text for each with which nothing is."""
    given = stated()
    for it in found:
        if it in lost:
            yield f"{it}: {lost[it]} does not fail with it"
        elif it in witnesses and it.kind == edits.TOLD and not given.is_determined(witnesses[it]):
            yield f"{it}: fails only as {witnesses[it]}, which no contract determines"
        elif it in witnesses and it.kind == edits.SLOWER and not given.is_counted(witnesses[it]):
            yield f"{it}: fails as {witnesses[it]}, which counts no work"
        elif it in witnesses:
            yield ""


def sort(found):
    """Writes each mutant to the folder that it belongs to, and says how many of each crate are in each."""
    given = stated()
    for crate in dict.fromkeys(it.crate for it in found):
        folder = TOP / "crates" / crate
        own = [it for it in found if it.crate == crate]
        in_folder = lambda kind: [it.edit for it in own if given.folder_of(it) == kind]
        tried, told, slower = map(in_folder, (edits.TRIED, edits.TOLD, edits.SLOWER))
        group_edits.write_alone(tried, folder / edits.TRIED)
        group_edits.write_by_source(told, folder / edits.TOLD)
        group_edits.write_by_source(slower, folder / edits.SLOWER)
        print(f"{crate}: {len(tried)} in {edits.TRIED}/, {len(told)} in {edits.TOLD}/, {len(slower)} in {edits.SLOWER}/")


def run(found, names, in_all, with_slow_tests):
    """Runs the tests of these crates, or of all that are needed, and returns their witnesses, and the known ones that were not found."""
    given = known_witnesses(found)
    crates = [it for it in check_counts.crate_names() if tests_of(it) and (not names or it in names)]
    if not in_all:
        crates = [it for it in crates if any(crate_and_test(witness)[0] == it for witness in given.values())]
    with tempfile.TemporaryDirectory(prefix="witness-") as room:
        os.chmod(room, 0o755)
        witnesses = run_all(found, given, Path(room), crates, in_all, with_slow_tests)
    tried = [it for it, witness in given.items() if crate_and_test(witness)[0] in crates]
    kept = {it: witness for it, witness in given.items() if it not in tried}
    return kept | witnesses, {it: given[it] for it in tried if it not in witnesses}


def words():
    asked = argparse.ArgumentParser(description=__doc__, formatter_class=argparse.RawDescriptionHelpFormatter)
    asked.add_argument("--run", action="store_true")
    asked.add_argument("--write", action="store_true")
    asked.add_argument("--slow", action="store_true")
    asked.add_argument("--sort", action="store_true")
    asked.add_argument("names", nargs="*", metavar="NAME")
    return asked.parse_args()


def main():
    asked = words()
    os.chdir(TOP)
    found = mutants(TOP)
    if asked.write:
        write(found, run(found, asked.names, True, asked.slow)[0])
        return 0
    if asked.sort:
        sort(found)
        return 0
    wrong = [*faults(found)]
    if asked.run:
        wrong += faults_of_run(found, *run(found, asked.names, False, True))
    return results.report(wrong)


if __name__ == "__main__":
    sys.exit(main())
