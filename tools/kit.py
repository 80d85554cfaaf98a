#!/usr/bin/env python3
"""The toolchain's program rt, as a module: all that these tools use of it, and all that they change in it.

  kit.py               prints what rt of this kit lacks of that; the last line is 'N passed, M failed'
  kit.py try WORDS..   rt try, without the check that rt runs at the same time for a hint, and which takes as long

rt has no other interface for what tools/gate.py and tools/check_edits.py do. tools/older_rt.py adds what an older kit lacks. If a kit lacks
something else, gate.py runs `rt ci` as it is.
"""
import contextlib
import hashlib
import importlib.machinery
import importlib.util
import inspect
import os
import re
import shutil
import subprocess
import sys
import tempfile
import threading

sys.dont_write_bytecode = True
import older_rt
import results

TOP = os.path.dirname(os.path.dirname(os.path.abspath(__file__)))
RT = shutil.which("rt")
# What is called or replaced, by its owner, with the names of its parameters; `_` means any.
CALLED = {
    "rt": {
        "ci": "anew names", "edits_alone": "names", "add_edits": "tasks crate edits first waits is_well kept start in_ci",
        "must_fail": "crate edit flags kept", "checked": "crate texts flags kept", "seeded": "crate flags start", "linked": "folder to",
        "in_lanes": "tasks", "ending": "_", "edits_of": "crate", "read_edit": "edit folder", "share_work": "is_alone", "say": "text out",
        "processors": "", "free": "", "main": "words",
    },
    "rt.Kept": {"key": "self crate", "of_edit": "self edit sum"},
    "rt.Crate": {
        "ci": "self flags tests", "prove": "self commands", "link": "self made program", "compile_by": "self backend words to",
        "words": "self flags tests keeps as_source", "build_rlib": "self flags anew", "below": "self",
    },
    "rt.rtlib": {"crates_below": "top", "help_of": "verb"},
}
# What else is used: constants, what each crate knows of itself, and the kinds of tasks that rt ci does, those that others wait for first.
VALUES = {"rt": "KIT SEEDS REFUSED MISSED UNSURE", "rt.rtlib": "RATTLE VERDICT"}
OF_A_CRATE = "name folder is_program is_static"
KINDS = ("proof", "seed", "tests", "edits", "sound", "again")
# How the pattern of a verdict ends.
END = r"\n\Z"
# What the prover said of each unchanged crate, by its name.
proofs = {}
# What stands for the folder that edits begin with, if that is a run's own proof. Without one, rt tries the only edit of a crate from nothing.
OWN_PROOF = "the proof of this run"
# The folders of what such proofs made.
own_seeds = set()


def load():
    """Returns rt as a module. It is a Python program."""
    if not RT:
        sys.exit(f"{os.path.basename(sys.argv[0])}: there is no rt on the PATH")
    loader = importlib.machinery.SourceFileLoader("rt_of_kit", os.path.realpath(RT))
    made = importlib.util.module_from_spec(importlib.util.spec_from_loader("rt_of_kit", loader))
    loader.exec_module(made)
    return made


rt = load()
IS_OLDER = older_rt.complete(rt)


# ---- what a kit lacks


def owned(owner, name):
    """Returns what a dotted path of an owner has of this name, or None."""
    it = rt
    for part in [*owner.split(".")[1:], name]:
        it = getattr(it, part, None)
    return it


def fault_of_call(owner, name, parameters):
    """Returns why a function is not as these tools call it, or an empty text."""
    found = owned(owner, name)
    if not callable(found):
        return f"{owner} has no {name}"
    takes = " ".join(inspect.signature(found).parameters)
    return "" if parameters in ("_", takes) else f"{owner}.{name} takes ({takes}), and not ({parameters})"


def faults():
    """Yields what the kit lacks, and an empty text for each thing that it has."""
    unneeded = older_rt.UNNEEDED if IS_OLDER else ()
    for owner, calls in CALLED.items():
        yield from (fault_of_call(owner, *it) for it in calls.items() if it[0] not in unneeded)
    for owner, names in VALUES.items():
        yield from ("" if owned(owner, it) is not None else f"{owner} has no {it}" for it in names.split())
    verdict = getattr(owned("rt.rtlib", "VERDICT"), "pattern", "")
    yield "" if verdict.endswith(END) else f"rt.rtlib.VERDICT does not end with {END}"
    text = inspect.getsource(rt)
    yield from ("" if f'crate.name, "{it}"' in text else f"rt ci has no task {it}" for it in (older_rt.KINDS if IS_OLDER else KINDS))
    crate = next(iter(rt.rtlib.crates_below(TOP)), None) if callable(owned("rt.rtlib", "crates_below")) else None
    yield from ("" if hasattr(crate, it) else f"a crate has no {it}" for it in OF_A_CRATE.split())


def lacks():
    """Returns what the kit lacks."""
    return [*filter(None, faults())]


# ---- what the machine has


def processors():
    return rt.processors() if callable(owned("rt", "processors")) else len(os.sched_getaffinity(0))


def free():
    """Returns the free memory in bytes."""
    if callable(owned("rt", "free")):
        return rt.free()
    with open("/proc/meminfo") as it:
        return 1024 * int(re.search(r"^MemAvailable: +(\d+)", it.read(), re.M)[1])


# ---- a crate's proof, once

EMPTY_CONTRACTS = "--empty-contracts"
# Whether this thread's checks look for contracts that no call can satisfy.
looks = threading.local()


@contextlib.contextmanager
def empty_contracts(are_looked_for):
    """Has the checks that this thread begins look for contracts that no call can satisfy, or not."""
    looks.for_empty_contracts = are_looked_for
    try:
        yield
    finally:
        looks.for_empty_contracts = True


def look_if_asked():
    """Has rt pass the flag for such contracts only if `empty_contracts` says so. It passes it if the prover's help names it."""
    help_by_rt = rt.rtlib.help_of

    def help_of(verb):
        said = help_by_rt(verb)
        return said if getattr(looks, "for_empty_contracts", True) else said.replace(EMPTY_CONTRACTS, "")

    rt.rtlib.help_of = help_of


def crate_that_is_proved_once():
    """Returns the class of crates under rt ci whose proof is kept, for their tests, programs, edits and the crates above."""

    class ProvedOnce(rt.Crate):
        # The names of those that are not proved.
        refused = set()

        def ci(self, flags, tests):
            kept = f"{self.folder}/out/{'tests' if tests else 'incremental'}"
            flags = [*flags, "--incremental", kept]
            if tests:
                return self.check_tests(flags, kept)
            status = self.build_once(flags)
            if status > 0:
                self.tell_and_forget()
                status = self.build_once(flags)
            if status:
                self.refused.add(self.name)
                return status
            self.out.seek(0)
            proofs[self.name] = self.out.read()
            return 0

        def build_once(self, flags):
            # Contracts that no call can satisfy are looked for with a crate's tests, if it has any: other crates wait for its proof.
            with empty_contracts(not self.has_tests()):
                if self.is_static:
                    return self.build_library(flags)
                return self.build_program(flags) if self.is_program else super().ci(flags, False)

        def tell_and_forget(self):
            """Prints what the prover said of a crate that it did not prove, which is then proved once more over what it did prove.

            A check fails too if the machine ends one of its processes.
            """
            self.out.seek(0)
            print(f"== {self.name}, which is proved once more after this\n{self.out.read()}", flush=True)
            self.out.seek(0)
            self.out.truncate()

        def check_tests(self, flags, kept):
            if self.name in self.refused:
                rt.say("the crate itself is not proved", self.out)
                return 1
            shutil.rmtree(kept, ignore_errors=True)
            if self.name in proofs:
                rt.linked(f"{self.folder}/out/incremental", kept)
            return super().ci(flags, True)

        def build_program(self, flags):
            """Proves a program and builds it by both compilers, as rt does from a checked crate, which keeps no work."""
            words, to = self.words_to_build(flags), f"out/{self.name}"
            status = self.prove(["build", *words, "--backend", "llvm", "-o", f"{to}.o"])
            return status or self.link(f"{to}.o", to) or self.compile_by("rattle", words, to)

        def build_library(self, flags):
            """Proves a static library and builds it, and puts it with what a crate's proof made."""
            built, folder = f"out/lib{self.name}.a", f"{self.folder}/out/rlib/{self.name}.rlib"
            status = self.prove(["build", *self.words_to_build(flags), "--backend", "llvm", "-o", built])
            if not status:
                os.makedirs(folder, exist_ok=True)
                os.replace(f"{self.folder}/{built}", f"{folder}/lib{self.name}.a")
            return status

        def words_to_build(self, flags):
            return [*self.words(flags, keeps=False), "--toolchain", f"{rt.KIT}/toolchain"]

        def build_rlib(self, flags, anew):
            # (A library of statements alone can't be built over kept work.)
            self.cuts_libraries = False
            return super().build_rlib(flags, anew)

    return ProvedOnce


def prove_once(in_lanes):
    """Has rt ci prove each crate once, and do its tasks by this function."""
    rt.Crate, rt.in_lanes = crate_that_is_proved_once(), in_lanes
    look_if_asked()
    rt.rtlib.VERDICT = re.compile(rt.rtlib.VERDICT.pattern.removesuffix(END) + r" incremental=trusted" + END, re.M)
    how = hashlib.sha256(inspect.getsource(crate_that_is_proved_once).encode()).hexdigest()
    key_by_rt = rt.Kept.key
    rt.Kept.key = lambda kept, crate: hashlib.sha256(f"{key_by_rt(kept, crate)} {how}".encode()).hexdigest()


# ---- edits


def with_verdict(ran):
    """Adds the line that rt expects of a verdict to the output of a check of a few functions, if these are not all proved.

    Such a check gives no verdict, but says how many of them are proved.
    """
    proved = re.search(r"^only=(\d+) proved=(\d+)\n\Z", ran.stdout, re.M)
    if proved and proved[1] != proved[2]:
        ran.stdout += "logic=not-proved\n"
    return ran


def seed(crate):
    """Returns a new folder whose folder seed holds what the run's own proof of a crate made, or None if there is none."""
    made = f"{crate.folder}/out/incremental"
    if crate.name not in proofs or not os.path.isdir(made):
        return None
    room = tempfile.mkdtemp(prefix=f"rt-edits-{os.getpid()}-")
    rt.SEEDS.append(room)
    rt.linked(made, f"{room}/seed")
    own_seeds.add(f"{room}/seed")
    return room


def try_edits(verdict, in_lanes, how, grouped):
    """Has rt try edits over the run's own proofs, and do its tasks by `in_lanes`.

    `verdict` gets a crate, an edit file, and a call that takes more words of the check, and returns what rt makes of it and what the prover
    said. It returns what the edit comes to. `how` is a sum of how edits are judged, so that what rt or an earlier judge passed is not taken
    for it. `grouped` gets a crate and its edit files, and returns those that are tried in their place.
    """
    this_thread = threading.local()
    checked, must_fail, seeded, of_edit, edits_of = rt.checked, rt.must_fail, rt.seeded, rt.Kept.of_edit, rt.edits_of
    add_edits = getattr(rt, "add_edits", None)

    def check(crate, texts, flags, kept):
        if not texts and kept in own_seeds and crate.has_tests():
            # rt asks whether the crate is still proved over these files, once all edits were tried and none of the files was changed. The
            # crate's tests, which it waits for, are proved over the same files.
            return subprocess.CompletedProcess([], 0, proofs[crate.name])
        ran = checked(crate, texts, flags, kept)
        if not texts and not ran.returncode:
            proofs[crate.name] = ran.stdout
        this_thread.said = with_verdict(ran).stdout
        return ran

    def judged(crate, edit, flags, kept=None):
        this_thread.said = ""
        return verdict(crate, edit, lambda words: (must_fail(crate, edit, [*flags, *words], kept), this_thread.said))

    def add(tasks, crate, edits, first, waits, is_well, kept, start=None, in_ci=True):
        return add_edits(tasks, crate, edits, first, waits, is_well, kept, start or in_ci and OWN_PROOF, in_ci)

    def begun(crate, flags, start=None):
        start = None if start == OWN_PROOF else start
        return not start and seed(crate) or seeded(crate, flags, start)

    def in_groups(crate):
        good, bad = edits_of(crate)
        return grouped(crate, good), bad

    rt.checked, rt.must_fail, rt.in_lanes, rt.add_edits, rt.seeded, rt.edits_of = check, judged, in_lanes, add, begun, in_groups
    rt.Kept.of_edit = lambda kept, edit, sum: of_edit(kept, edit, f"{sum} {how}")


def run_alone(words):
    """Does rt try, with a program that does nothing in place of its check. With another kit it is plain rt try."""
    if lacks():
        return subprocess.run([RT, *words]).returncode
    rt.rtlib.RATTLE = "true"
    return rt.main(words)


def main():
    return run_alone(sys.argv[1:]) if sys.argv[1:2] == ["try"] else results.report(faults())


if __name__ == "__main__":
    sys.exit(main())
