#!/usr/bin/env python3
"""Proves every crate and its tests from nothing, and writes docs/measured/verdict.csv: when each verdict was known.

  verdict.py [--jobs N] [NAME..]     all crates, or these and those below; the last line is 'N passed, M failed'

This is the toolchain's rt all verdict, on a copy of the repository. It takes nothing from an earlier check, and trusts no file that it
wrote itself, as the gate does. It tries no mutant and runs no test.
"""
import argparse
import os
import re
import shutil
import subprocess
import sys
import tempfile
import time
from pathlib import Path

sys.dont_write_bytecode = True
import measured

TOP = Path(__file__).resolve().parent.parent
# The first line about a crate, and its last one, the verdict.
CRATE = re.compile(r"== (\w+)\n")
PROVED = re.compile(r"logic=proved functions=(\d+) ")


def with_those_below(names):
    """Returns the lines of crates.txt of these crates and of those below them, or all if there are no names."""
    lines = {re.match(r"\w+", it)[0]: it for it in (TOP / "crates.txt").read_text().splitlines() if it and it[0] != "#"}
    wanted = [*names] or [*lines]
    for name in wanted:
        wanted += [it for it in lines[name].partition(":")[2].split() if it in lines and it not in wanted]
    return {name: line for name, line in lines.items() if name in wanted}


def copy(to, lines):
    """Copies what a verdict on these crates reads."""
    to.mkdir()
    shutil.copy(TOP / "HANDLES", to)
    (to / "crates.txt").write_text("\n".join(lines.values()) + "\n")
    for name in lines:
        shutil.copytree(TOP / "crates" / name, to / "crates" / name, ignore=lambda at, its: [it for it in its if it == "out"])


def proved(lines, started):
    """Prints the lines of rt all verdict, and returns of each proved crate its functions and when its verdict was known.

    A crate's own verdict follows that with its tests.
    """
    crate, found = "", {}
    for line in lines:
        print(line, end="", flush=True)
        if begun := CRATE.fullmatch(line):
            crate = begun[1]
        elif verdict := PROVED.match(line):
            found[crate] = verdict[1], round(time.time() - started)
    return found


def run(words, names):
    """Returns the rows of the crates, and whether all are proved."""
    with tempfile.TemporaryDirectory(prefix="verdict-") as room:
        copy(Path(room) / "repository", with_those_below(names))
        started = time.time()
        how = {"stdin": subprocess.DEVNULL, "stdout": subprocess.PIPE, "stderr": subprocess.STDOUT, "text": True, "errors": "replace"}
        ran = subprocess.Popen([os.environ.get("RT", "rt"), "all", "verdict", *words], cwd=f"{room}/repository", **how)
        found = proved(ran.stdout, started)
    columns = measured.COLUMNS["verdict"]
    of_all = os.cpu_count(), time.strftime("%Y-%m-%d")
    return [dict(zip(columns, (crate, *its, *of_all))) for crate, its in found.items()], not ran.wait()


def main():
    asked = argparse.ArgumentParser(description=__doc__, formatter_class=argparse.RawDescriptionHelpFormatter)
    asked.add_argument("--jobs", help="how many crates are proved at a time; rt chooses if it is not given")
    asked.add_argument("names", nargs="*", metavar="NAME")
    asked = asked.parse_args()
    rows, is_proved = run(["--jobs", asked.jobs] if asked.jobs else [], asked.names)
    if is_proved:
        measured.save("verdict", rows)
    print(f"{len(rows)} passed, {int(not is_proved)} failed")
    return int(not is_proved)


if __name__ == "__main__":
    sys.exit(main())
