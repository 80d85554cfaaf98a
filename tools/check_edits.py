#!/usr/bin/env python3
"""Tries the must-fail edits: the prover must reject each mutant on its own.

  check_edits.py [NAME..]            the edits of these crates, or of all, over the proofs that rt check kept in out/
  check_edits.py NAME FILE.edit..    these of the crate's edits
  check_edits.py --anew [NAME..]     also those that were tried before, over proofs made from scratch
  check_edits.py --list [NAME..]     prints the function that each edit changes, and tries nothing

One check tries a group of edits (tools/group_edits.py): pairs of `old:` and `new:` in the bodies of different functions, with a line of
words that begins with `#` before each edit. Each of those functions must fail on its own: by a goal of its own that
automatic search does not prove, or by an error in its own proof; not because it calls another that fails. A body changes
no contract, so one pair cannot make another's function fail. Hence two edits of one function or of one cycle of calls,
and a pair outside any body, are in separate groups. Pairs in one function with no words between them are one edit.

tools/judge.py decides that by the prover's output: a proof that only misses names which the edit took away rejects nothing.

This is rt must-fail, and what gate.py tries of edits is rt ci's own: how an edit is read, checked and kept, and what it
begins with, is what rt says. Three things are changed: edits are tried in groups; of the crate only the functions that a group changes
are checked, with what they call; and a group counts as rejected only if each of its functions fails on its own.
"""
import argparse
import hashlib
import inspect
import os
import sys

sys.dont_write_bytecode = True
import edits
import group_edits
import judge
import kit
import lanes
from edits import say


def only(crate, functions):
    """Returns the words that have only these functions checked, none if the crate's proof does not name each once."""
    said = kit.proofs.get(crate, "")
    named = [{path for path, _ in it.lines(crate, said) if "fn::" not in path} if it else () for it in functions]
    return [word for it in named for word in ("--only", *it)] if all(len(it) == 1 for it in named) else []


def faults_of(crate, edit, mutants, said):
    """Returns why the prover's output does not reject each of a group's mutants, with the names of their files."""
    texts = kit.rt.read_edit(edit, crate.folder)[0]
    found = [(mutant, judge.fault_of_function(crate.name, it, said, texts) if it else judge.fault_outside_bodies(said))
             for mutant in mutants for it in mutant.functions]
    return [(mutant, fault) for mutant, fault in found if fault]


def verdict(crate, edit, tried):
    """Returns what a group of edits comes to, as rt's must_fail: it is missed, too, if one of its functions does not fail on its own.

    `tried` takes words for the check of the crate with the edits, and returns what rt makes of that, and what the prover said.
    """
    name_of = lambda file: f"must-fail {crate.name}/{file}"
    functions, fault = edits.read(edit, crate.folder)
    if fault:
        return kit.rt.MISSED, f"{name_of(os.path.basename(edit))}: BAD EDIT: {fault}"
    mutants = group_edits.read_edits(edit, crate.folder)
    held = [f"  which has {', '.join(it.file_name() for it in mutants)}"] if len(mutants) > 1 else []
    (kind, text), said = tried(only(crate.name, functions))
    if kind not in (kit.rt.REFUSED, kit.rt.MISSED):
        return (kind, text) if kind == kit.rt.UNSURE else (kit.rt.MISSED, "\n".join([text, *held]))
    faults = faults_of(crate, edit, mutants, said)
    if faults or kind == kit.rt.MISSED:
        named = [f"{name_of(it.file_name())}: NOT REFUSED FOR ITSELF: {fault}" for it, fault in faults]
        return kit.rt.MISSED, "\n".join([text, *held, *named])
    told = [f"{name_of(it.file_name())}: refused for itself" for it in mutants]
    return kit.rt.REFUSED, "\n".join([text, *told])


def judge_by_function(files=()):
    """Has rt try edits as this program's description says, of all files or of these."""
    parts = (edits, judge, kit, only, faults_of, verdict)
    how = hashlib.sha256("".join(inspect.getsource(it) for it in parts).encode()).hexdigest()
    kit.try_edits(verdict, lanes.in_lanes, how, group_edits.Groups(files).files_of)


def list_edits(names):
    """Prints the functions that each edit changes, and what edits can't be tried."""
    crates, faults = edits.edits_below(os.getcwd(), names)
    for crate, files in crates:
        for file in files:
            functions, _ = edits.read(file, crate.folder)
            say(f"{crate.name}/{os.path.basename(file)}: {', '.join(str(it or 'no body') for it in functions)}")
    for it in faults:
        say(it)
    return 1 if faults else 0


def words():
    asked = argparse.ArgumentParser(description=__doc__, formatter_class=argparse.RawDescriptionHelpFormatter)
    asked.add_argument("--anew", action="store_true")
    asked.add_argument("--list", action="store_true")
    asked.add_argument("names", nargs="*", metavar="NAME")
    return asked.parse_args()


def main():
    asked = words()
    files = [os.path.basename(it) for it in asked.names if it.endswith(".edit")]
    names = [it for it in asked.names if not it.endswith(".edit")]
    if asked.list:
        return list_edits(names)
    if bool(files) > (len(names) == 1):
        edits.stop("edit files are those of one crate, whose name is given first")
    for it in files:
        if not os.path.isfile(f"crates/{names[0]}/{edits.TRIED}/{it}"):
            edits.stop(f"{names[0]} has no {edits.TRIED}/{it}")
    for it in kit.lacks():
        edits.stop(f"this kit cannot try edits by function, only `rt must-fail`: {it}")
    judge_by_function(files)
    kit.rt.share_work(False)
    return kit.rt.edits_alone([*names, *["--anew"] * asked.anew])


if __name__ == "__main__":
    sys.exit(main())
