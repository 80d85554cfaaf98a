#!/usr/bin/env python3
"""Proves, tests and builds all crates and tries their must-fail edits: rt ci, with each crate proved once.

  gate.py                    what CI runs. What passes is kept on this machine, by the sums of all that it read, as rt ci keeps it: a
                             later run proves and tries only what changed and the crates above it, and runs every test and program
  gate.py --built FOLDER     the same, and FOLDER gets a file NAME once what is built of the crate NAME is in the work tree
  gate.py NAME..             the same for these crates and those below them alone: not the gate, but what passes is kept for it
  gate.py --anew             proves and tries everything

rt ci by itself proves a crate three times from nothing: once, once with its tests, and once for its edits. This runs rt's
own program on a copy of the repository, with three things changed:

  - what the proof of a crate made, which begins from nothing, stays until the run ends;
  - the crate's tests, its program and its static library are checked over that work, and so are the crates above it;
  - its edits are tried over it too, as check_edits.py says, in parallel with what is still to be proved.

So the prover says `incremental=trusted` of each crate: it trusts the files that this run wrote in its own folder. rt ci
by itself, which trusts none, takes the repository as well, and nothing that is kept here. The work tree gets each program
and the static library once its crate is proved, for the commands that use them. The last line is 'N passed, M failed'. Before
it is what has failed and why, in as many lines as .ci/run repeats.

With a kit that lacks what tools/kit.py uses of rt, this is plain rt ci, and `rt lib` for the static library.
"""
import argparse
import functools
import os
import re
import shutil
import subprocess
import sys
import tempfile
import traceback
from collections import ChainMap
from pathlib import Path

sys.dont_write_bytecode = True
import check_edits
import edits
import kit
import lanes
import library
import processor
import reasons


class Output:
    """Standard output, or standard error, that remembers what was written, and its last line."""

    def __init__(self, to):
        self.to, self.buffer, self.said, self.last = to, Bytes(self), [], ""

    def write(self, text):
        self.said.append(text)
        self.last = text.rstrip("\n").rpartition("\n")[2] or self.last
        return self.to.write(text)

    def flush(self):
        self.to.flush()


class Bytes:
    """The buffer of an output: what tests print, rt writes there."""

    def __init__(self, output):
        self.output = output

    def write(self, text):
        return self.output.write(text.decode(errors="replace"))

    def flush(self):
        self.output.flush()


class Built:
    """What rt ci builds in its copy of the repository, and puts into the work tree in place of what earlier runs built."""

    def __init__(self, top, work_tree, notes):
        self.top, self.work_tree, self.notes, self.names = top, work_tree, notes, set()

    def put(self, name):
        """Puts what is built of a crate into the work tree, and removes what is not built; then a note says so."""
        for built, file in (f"{name}", name), (f"rlib/{name}.rlib/lib{name}.a", f"lib{name}.a"):
            made, to = f"{self.top}/crates/{name}/out/{built}", f"{self.work_tree}/crates/{name}/out/{file}"
            if os.path.isfile(made):
                os.makedirs(os.path.dirname(to), exist_ok=True)
                shutil.copy2(made, f"{to}.new")
                os.replace(f"{to}.new", to)
            elif os.path.isfile(to):
                os.remove(to)
        built = Path(self.work_tree) / library.LIBRARY
        if name == library.CRATE and built.is_file():
            library.note(built, library.sources(Path(self.top)))
        self.names.add(name)
        if self.notes:
            Path(self.notes, name).touch()

    def put_others(self):
        """Does the same with each other crate: what the work tree has of it is not of a proof of this run."""
        for name in {*os.listdir(f"{self.top}/crates")} - self.names:
            self.put(name)


def in_lanes(tasks, built=None):
    """Does rt ci's tasks side by side. A crate's tests and edits wait for its proof, whose work they begin with.

    Its edits don't wait for its tests, as they do in rt ci: a crate whose tests are not proved has failed, whatever its
    edits came to. What is built of a crate is put into the work tree once it is proved.
    """
    done = {}
    for (name, kind, *number), (waits, lines, memory, call) in tasks.items():
        proof, tests = (name, "proof"), (name, "tests")
        if kind in ("tests", "seed"):
            waits = [*waits, proof]
        elif kind == "edits":
            waits, call = [it for it in waits if it != tests], as_if_given({tests: True}, call)
        elif kind == "sound":
            waits = [*waits, tests]
        elif kind == "proof" and built:
            call = if_well(call, functools.partial(built.put, name))
        done[name, kind, *number] = waits, lines, memory, call
    return lanes.in_lanes(done)


def as_if_given(more, call):
    """Returns the call of a task that takes this as given, in addition to what was given so far."""
    return lambda given, jobs: call(ChainMap(given, more), jobs)


def if_well(call, then):
    """Returns the call of a task that does something more if its result is true."""

    def both(given, jobs):
        result = call(given, jobs)
        if result:
            then()
        return result

    return both


def prove_once(built=None):
    """Has rt ci do as this program's description says."""
    check_edits.judge_by_function()
    kit.prove_once(functools.partial(in_lanes, built=built))


def copy_repository(to):
    """Copies the repository without what was built in it."""
    unwanted = lambda at, names: [it for it in names if it == "out" or it == ".git" and at == os.getcwd()]
    shutil.copytree(os.getcwd(), to, symlinks=True, ignore=unwanted)


def run(anew, notes):
    """Runs rt ci on a copy of the repository, and returns its status and how many edits can't be tried.

    The folder `notes`, if it is given, gets a file for each crate once what is built of it is in the work tree.
    """
    work_tree = os.getcwd()
    with tempfile.TemporaryDirectory(prefix=f"rt-copy-{os.getpid()}-") as room:
        os.chmod(room, 0o711)  # (rt ci runs programs as nobody, in a folder below this one)
        tempfile.tempdir = room
        copy_repository(f"{room}/repository")
        os.chdir(f"{room}/repository")
        _, faults = edits.edits_below(f"{room}/repository", [])
        # (tools/check_counts.py compares the other commands.)
        if "\ncount python3 tools/check_counts.py\n" not in Path(".ci/run").read_text():
            faults.append(".ci/run does not count tools/check_counts.py")
        for it in faults:
            edits.say(it)
        built = Built(f"{room}/repository", work_tree, notes)
        prove_once(built)
        status = kit.rt.ci(anew)
        os.chdir(work_tree)
        built.put_others()
        tempfile.tempdir = None
    return status, len(faults)


def run_some(anew, names):
    """Runs rt ci for some crates, which copies them by itself."""
    prove_once()
    return kit.rt.ci(anew, names), 0


def run_plain(anew, names):
    """Runs rt ci as it is, and builds the static library, and returns the status of both and 0."""
    ran = subprocess.Popen([kit.RT, "ci", *["--anew"] * anew, *names], stdin=subprocess.DEVNULL, stdout=subprocess.PIPE, text=True, errors="replace")
    for line in ran.stdout:
        print(line, end="")
    last = sys.stdout.last
    has_library = bool(names) or not subprocess.run([sys.executable, f"{kit.TOP}/tools/library.py", "build"]).returncode
    sys.stdout.last = last
    return int(ran.wait() != 0 or not has_library), 0


def words():
    asked = argparse.ArgumentParser(description=__doc__, formatter_class=argparse.RawDescriptionHelpFormatter)
    asked.add_argument("--anew", action="store_true")
    asked.add_argument("--built", metavar="FOLDER", type=os.path.abspath)
    asked.add_argument("names", nargs="*", metavar="NAME")
    return asked.parse_args()


def run_asked(asked):
    """Runs what the arguments request, and returns its status and how many edits can't be tried. An exception that ends it is a failure."""
    lacks = kit.lacks()
    for it in lacks:
        edits.say(f"gate: this kit needs another tools/kit.py, so rt ci runs as it is: {it}")
    try:
        if lacks:
            return run_plain(asked.anew, asked.names)
        return run_some(asked.anew, asked.names) if asked.names else run(asked.anew, asked.built)
    except Exception as why:
        traceback.print_exc()
        print(f"gate: ended by {why!r}")
        return 1, 0


def report(status, faults, more=()):
    """Prints the time that the run and its commands took, more lines, what has failed and why, and the last line, and returns the status."""
    last = re.match(r"(\d+) passed, (\d+) failed", sys.stdout.last)
    passed, failed = map(int, last.groups()) if last else (0, 1)
    failed = (failed or int(status != 0)) + faults
    for it in (*processor.lines(), *more):
        print(f"gate: {it}")
    print(f"gate: {lanes.minutes(lanes.BEGUN)}, {sum(os.times()[:4]) / 60:.0f} min of processor, on {kit.processors()} processors")
    for it in reasons.reasons("".join(sys.stdout.said), "".join(sys.stderr.said)) if failed else []:
        print(it)
    print(f"{passed} passed, {failed} failed")
    return 1 if failed else 0


def main():
    asked = words()
    sys.stdout.reconfigure(line_buffering=True)
    sys.stdout, sys.stderr = Output(sys.stdout), Output(sys.stderr)
    processor.count()
    memory = lanes.FreeMemory()
    memory.start()
    ended = run_asked(asked)
    return report(*ended, [memory.line()])


if __name__ == "__main__":
    sys.exit(main())
