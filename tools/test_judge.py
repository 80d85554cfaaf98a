#!/usr/bin/env python3
"""Tests tools/judge.py: a body that is right must not count as rejected, and a mutant must. Tests tools/witness.py: which witnesses take
its place, and which mutants can have one. Tests tools/group_edits.py: each mutant is in one group, apart from those of its function; and
what tools/check_edits.py says of each. Tests tools/kit.py: what another kit lacks is noticed; tools/edits.py reads edits as rt does.

    tools/test_judge.py        the last line is 'N passed, M failed'

tools/judged.toml has edited functions, and what the prover said of each, cut to its lines about that function. `limit` marks
bodies that are right and count as rejected all the same: their proof names only what is still there, but no longer fits. Nothing
in the output distinguishes these from mutants, but no test fails with them. Of a mutant of the repository the file has only what the
prover said.
"""
import re
import sys
import tempfile
import tomllib
from pathlib import Path
from types import SimpleNamespace

sys.dont_write_bytecode = True
import check_counts
import check_edits
import edits
import group_edits
import judge
import kit
import results
import witness

JUDGED = Path(__file__).resolve().parent / "judged.toml"


def with_mutant(edit, mutants):
    """Returns a recorded edit with the words, the file and the text of the mutant that it names, if it names one.

    The text is moved so that the function is at the line that it had for the prover. A mutant is wrong because a test fails with it.
    """
    if "mutant" not in edit:
        return edit
    mutant = mutants.get(edit["mutant"]) or edits.stop(f"tools/judged.toml has {edit['mutant']!r}, which is no mutant")
    folder = witness.TOP / "crates" / mutant.crate
    [(path, text)] = edits.edited(mutant.edit.text, folder)[0].items()
    rows = text.split("\n")
    header, *_ = witness.body_with(rows, witness.changed_row((folder / path).read_text(), text))
    more = edit["line"] - 1 - header
    moved = [""] * more + rows if more > 0 else rows[-more:]
    is_right = not witness.stated().witness_of(mutant)
    return {**edit, "words": edit["mutant"], "file": path, "text": "\n".join(moved), "right": is_right}


def fault(edit):
    """Returns why the prover's output does not reject a recorded edit, or None if it does."""
    if "body" not in edit and "text" not in edit:
        return judge.fault_outside_bodies(edit["said"])
    text = edit.get("text") or "\n" * (edit["line"] - 1) + edit["body"]
    line = edit["line"] if "text" in edit else text.count("\n") - 1
    function = edits.function_at(edit["file"], text, line)
    crate = edit["said"].rpartition("\nfn ")[2].partition("::")[0]
    return judge.fault_of_function(crate, function, edit["said"], {edit["file"]: text})


# What the prover says of an error in a proof, and whether the proof names something which the edit took away.
MESSAGES = [
    ("the record has no field `left`", True),
    ("the module has no `left`", True),
    ("`left` is not in scope", True),
    ("`left` is not in scope here, so what is shown may differ", False),
    ("`left` was not admitted", True),
    ("this has type `ℕ`, and `Bool` is expected", False),
]

CALLS = "jsonb_raw tests::calls::answers_are_as_the_tables_say"
# Witnesses, and whether the contracts determine the result.
WITNESSES = [
    (f"{CALLS}: array_length 80000001200000025001 => 1", True),
    (f"{CALLS}: to_i64 2000000010000000 => refused: InvalidCast", True),
    ("jsonb_keypath tests::prints_key_paths: { 1, a }", True),
    ("jsonb_keypath tests::names_and_quoted_texts_are_read: [34, 97]", True),
    # an error if all rows decode
    ("jsonb_doc value::tests::compares_by_value: error: InvalidJsonb", True),
    # errors on all bytes
    (f"{CALLS}: check 800000 => refused: InvalidJsonb", True),
    (f"{CALLS}: get_by_keypath 800000 - {{}} => refused: InvalidJsonb", False),
    # a document that does not decode, and one whose number is not in its shortest form
    (f"{CALLS}: array_length 800000012000000160 => 1", False),
    (f"{CALLS}: delete_by_index 8000000120000003500005 0 => 80000000", False),
    # no result of the test
    (f"{CALLS}: error: OutOfMemory", False),
    (f"{CALLS}: error: AllocError", False),
    (f"{CALLS}: status 139", False),
    ("jsonb_keypath tests::prints_key_paths: AddressSanitizer:DEADLYSIGNAL", False),
    # a test that is not listed, and rows that are excepted
    ("jsonb_raw tests::deep::deep_documents_are_compared: [91]", False),
    ("jsonb_keypath tests::names_and_quoted_texts_are_read: copied [34, 97]", False),
    ("jsonb_doc array_builder::tests::builds_arrays_of_what_is_not_refused: [128, 0, 0, 1, 32, 0, 0, 2, 80, 1]", False),
]
# A source file, edits of it as old and new rows, and whether a test can fail with each: if it changes one body.
SOURCE = """\
const MOST: usize = 8;

#[inline]
fn is_short(len: usize) -> bool
{
    len <= MOST
}

fn is_long(len: usize) -> bool
{
    !is_short(len)
}
"""
SWITCHED = [
    ([("len <= MOST", "len < MOST")], True),
    ([("usize = 8", "usize = 9")], False),
    ([("#[inline]", "#[inline(always)]")], False),
    ([("is_short(len: usize)", "is_short(len: u8)")], False),
    ([("len <= MOST", "len < MOST"), ("!is_short", "is_short")], False),
]

# What an edit replaces in SOURCE, the function that it names, and whether that occurs there once.
NAMED = [
    ("usize", "", False),
    ("usize", "is_long", True),
    ("(len", "is_long", False),
    ("usize", "is_gone", False),
]

# Folders of a mutant, what tools/witnesses.toml says of the test that fails with it, and whether the mutant may be there.
FOLDERS = [
    (edits.TRIED, "", True),
    (edits.TOLD, "determined", True),
    (edits.TOLD, "", False),
    (edits.SLOWER, "counted", True),
    (edits.SLOWER, "determined", False),
    (edits.TOLD, "counted", False),
    (edits.TRIED, "counted", False),
]


# What tools/witnesses.toml gives for a mutant: a test, if one fails with it, and a reason; and whether it is accepted. No test fails with
# a body that is right, so that it is not accepted as a mutant, whatever the prover says of it.
EXPLAINED = [
    (True, None, True),
    (False, None, False),
    (False, witness.NO_REASON, False),
    (False, "differs only if an allocation fails", True),
    (True, "differs only if an allocation fails", False),
]


def is_accepted(pairs, folder=edits.TRIED, listed="", has_test=True, reason=None):
    """Returns whether a mutant in a folder may have a test as its witness, which tools/witnesses.toml lists in a part, or this reason.

    The mutant is that of these pairs in SOURCE.
    """
    with tempfile.TemporaryDirectory() as room:
        top, crate = Path(room), "jsonb_doc"
        file = top / "crates" / crate / "src/short.rt"
        file.parent.mkdir(parents=True)
        file.write_text(SOURCE)
        text = "file: src/short.rt\n" + "".join(f"old: {old}\nnew: {new}\n" for old, new in pairs)
        mutant = witness.Mutant(crate, "broken", group_edits.Edit("broken", text, "src/short.rt", []), folder, "broken.edit")
        determined, counted = ({f"{crate} tests::lengths": ""} if listed == part else {} for part in ("determined", "counted"))
        tests = {mutant.words: f"{crate} tests::lengths: 9"} if has_test else {}
        reasons = {mutant.words: reason} if reason else {}
        given = witness.Stated({crate: tests}, {crate: reasons}, determined, {}, counted)
        return not witness.fault_of(mutant, given, {crate: {"lengths"}}, top)


# What another kit may have in place of what rt has: nothing, or a function with other parameters.
OF_OTHERS = {"linked": None, "seeded": None, "SEEDS": None, "checked": lambda crate, texts, flags: None, "must_fail": lambda crate, edits: None}


def is_noticed(name):
    """Returns whether tools/kit.py says that something is not as it uses it."""
    before, own = kit.lacks(), getattr(kit.rt, name, None)
    setattr(kit.rt, name, OF_OTHERS[name])
    try:
        return [*before] != kit.lacks() or own is None
    finally:
        setattr(kit.rt, name, own)


# An edit that changes nothing.
SAME = "file: src/lib.rt\nold: #![tactic(auto)]\nnew: #![tactic(auto)]\n"


# Files of mutants of SOURCE, and the words of the mutants in each group that they are tried in.
IS_SHORT, IS_LONG = "old: len <= MOST\nnew: len < MOST\n", "old: !is_short(len)\nnew: is_short(len)\n"
OTHERWISE = "old: len <= MOST\nnew: MOST <= len\n"
OUTSIDE, REPEATED = "old: usize = 8\nnew: usize = 9\n", "old: !is_short(len)\nnew: !is_short(len) || len <= MOST\n"
GROUPED = [
    ({"less": IS_SHORT, "turned": IS_LONG}, [["less", "turned"]]),
    ({"less": IS_SHORT, "more": OTHERWISE, "turned": IS_LONG}, [["less", "turned"], ["more"]]),
    ({"one_more": OUTSIDE, "less": IS_SHORT}, [["less"], ["one more"]]),
    ({"both": IS_SHORT + IS_LONG, "turned": IS_LONG}, [["turned"], ["both"]]),
    # the second can't be applied to what the first makes
    ({"both_are": REPEATED, "less": IS_SHORT}, [["both are"], ["less"]]),
    ({"together": f"# less\nfile: src/short.rt\n{IS_SHORT}# turned\nfile: src/short.rt\n{IS_LONG}"}, [["less", "turned"]]),
]
# What the prover says of both functions of SOURCE, and the mutants that are not rejected then.
OPEN, WELL = "`returns-clause`: did not prove", "proved"
SAID = [((OPEN, OPEN), []), ((OPEN, WELL), ["turned.edit"]), ((WELL, OPEN), ["less.edit"]), ((OPEN, "not proved; it calls `low::short::is_short`"), ["turned.edit"])]


def crate_with(room, files):
    """Returns a crate low in a folder, with SOURCE and these files in must-fail/, and the paths of these."""
    (room / "src").mkdir(parents=True)
    (room / "src/short.rt").write_text(SOURCE)
    (room / edits.TRIED).mkdir()
    for name, pairs in files.items():
        (room / edits.TRIED / f"{name}.edit").write_text(pairs if pairs.startswith("#") else f"file: src/short.rt\n{pairs}")
    return SimpleNamespace(name="low", folder=str(room)), [str(it) for it in sorted((room / edits.TRIED).iterdir())]


def words_in(files, crate):
    return [[it.words for it in group_edits.read_edits(file, crate.folder)] for file in files]


def fault_of_groups(files, expected):
    """Returns what is wrong with the groups of these files, or an empty text."""
    with tempfile.TemporaryDirectory() as room:
        crate, paths = crate_with(Path(room), files)
        groups = group_edits.Groups()
        found = words_in(groups.files_of(crate, paths), crate)
    return "" if found == expected else f"{[*files]}: expected the groups {expected}, got {found}"


def fault_of_verdict(verdicts, expected):
    """Returns what is wrong with which of two mutants are rejected if the prover says this of their functions, or an empty text."""
    with tempfile.TemporaryDirectory() as room:
        crate, paths = crate_with(Path(room), GROUPED[0][0])
        groups = group_edits.Groups()
        [group] = groups.files_of(crate, paths)
        said = "".join(f"fn low::short::{name}: {it}\n" for name, it in zip(("is_short", "is_long"), verdicts))
        kind, text = check_edits.verdict(crate, group, lambda words: ((kit.rt.REFUSED, ""), said))
    named = [re.match(r"must-fail low/(\S+): (NOT )?", it) for it in text.splitlines()]
    found, told = [it[1] for it in named if it and it[2]], [it[1] for it in named if it and not it[2]]
    is_right = found == expected and (kind == kit.rt.REFUSED) == (not expected) and (expected or told == ["less.edit", "turned.edit"])
    return "" if is_right else f"{verdicts}: expected {expected or 'both'}, got {kind}: {text}"


def faults_of_groups():
    """Yields what is wrong with the groups of the repository's mutants and of GROUPED, and with verdicts, and empty strings if nothing is."""
    made = group_edits.Groups()
    for crate in kit.rt.rtlib.crates_below(str(witness.TOP)):
        files, _ = kit.rt.edits_of(crate)
        one_each = [file for file, its in zip(files, words_in(files, crate)) if len(its) > 1]
        groups = made.files_of(crate, files)
        grouped = sorted(it for its in words_in(groups, crate) for it in its)
        unread = [why for it in groups if (why := edits.read(it, crate.folder)[1])]
        yield f"{crate.name}: {one_each} have several mutants" if one_each else ""
        yield "" if grouped == sorted(it for its in words_in(files, crate) for it in its) and not unread else f"{crate.name}: groups lack a mutant, or repeat one: {unread}"
    yield from (fault_of_groups(*it) for it in GROUPED)
    yield from (fault_of_verdict(*it) for it in SAID)


def read_otherwise():
    """Yields the edits that rt reads otherwise than tools/edits.py, of all in the repository and of some that can't be applied."""
    by_rt = kit.owned("rt", "edited") or edits.edited
    for crate in check_counts.crate_names():
        folder = str(witness.TOP / "crates" / crate)
        found = [it.text for file in edits.files_of(Path(folder)) for it in group_edits.read_edits(file, folder)]
        texts = [it for it in found if "\nfunction: " not in it]
        broken = [change(it) for it in texts[:3] for change in (str.upper, lambda it: it.replace("old: ", "old: no "), lambda it: f"{it}\nnew: \n")]
        for text in [*texts, *broken, "file: src/lib.rt\nold: //!\nnew: /!\n", "file: Cargo\nold: a\nnew: b\n", "file: src/../crates.txt\nold: a\nnew: b\n", "file: src/lib.rt\n", SAME]:
            if edits.edited(text, folder)[0] != by_rt(text, folder)[0]:
                yield f"{crate}: {text[:60]!r}"


def faults():
    """Yields what is wrong in each case, and an empty text for each in which nothing is."""
    for it in OF_OTHERS:
        yield "" if is_noticed(it) else f"{it} of another kit is not noticed"
    yield from read_otherwise()
    yield from faults_of_groups()
    for text, wanted in MESSAGES:
        yield "" if bool(judge.NAMES_WHAT_IS_GONE.search(text)) == wanted else f"{text}: {'not ' * wanted}of what the edit took away"
    for text, wanted in WITNESSES:
        yield "" if witness.stated().is_determined(text) == wanted else f"{text}: {'not ' * wanted}determined"
    for pairs, wanted in SWITCHED:
        yield "" if is_accepted(pairs) == wanted else f"{pairs}: {'no test' if wanted else 'a test'} is accepted as its witness"
    for old, function, wanted in NAMED:
        is_right = (edits.place_of(SOURCE, edits.Pair("src/short.rt", function, old, "")) is not None) == wanted
        yield "" if is_right else f"{old!r} is {'not ' * wanted}found in {function or 'the file'} once"
    for folder, listed, wanted in FOLDERS:
        is_right = is_accepted(SWITCHED[0][0], folder, listed) == wanted
        yield "" if is_right else f"{folder}/: a mutant whose test is {listed or 'in no list'} is {'not ' * wanted}accepted"
    for has_test, reason, wanted in EXPLAINED:
        is_right = is_accepted(SWITCHED[0][0], has_test=has_test, reason=reason) == wanted
        yield "" if is_right else f"a mutant with {'a' if has_test else 'no'} test, and the reason {reason}, is {'not ' * wanted}accepted"
    mutants = {str(it): it for it in witness.mutants(witness.TOP)}
    for edit in (with_mutant(it, mutants) for it in tomllib.loads(JUDGED.read_text())["edit"]):
        why = fault(edit)
        is_right = (why is None) == (not edit["right"] or "limit" in edit)
        yield "" if is_right else f"{edit['words']} ({edit['file']}), which is {'right' if edit['right'] else 'wrong'}: {why or 'counts as rejected'}"


def main():
    return results.report(faults())


if __name__ == "__main__":
    sys.exit(main())
