#!/usr/bin/env python3
"""Which functions a check spent its time on, by when it wrote what it keeps of each.

  proof_times.py NAME [COUNT]                the slowest functions (20) of the last check of a crate of which nothing was kept
  proof_times.py --trace LOG NAME [COUNT]    the same, by what fatrace (Debian) printed while a check ran:
                                             fatrace -c -t -f W >LOG, in a folder of the file system that the crate is on

A check with one job (rt check --jobs 1) ends with one function after the other, and writes the modules of each to the
crate's out/incremental, so that the time between two modules is what the second took. Several jobs write side by side,
and only a trace says which one wrote a module. A module that has a second name (cp -al) was kept from elsewhere, and is passed over.
"""
import argparse
import os
import re
from collections import Counter
from pathlib import Path

TOP = os.path.dirname(os.path.dirname(os.path.abspath(__file__)))
# The longest that a module can take; what is between two checks takes longer.
MOST = 600
MODULE = re.compile(r"Rattle-\w+-proofs\.(.+?)(?:\.(?:Lts|Proof|Kinds)(?:-[^.]*)?|\.[A-Z]\w*)*\.oantt$")
# When a process closed a file that it wrote, its name and number, and the file, which is renamed once it is complete.
CLOSED = re.compile(r"(\d+):(\d+):([\d.]+) [^(]+\((\d+)\): +\S*W\S* +(\S+\.oantt)(?:\.tmp\.\S+)?$")


def function_of(module):
    found = MODULE.match(module)
    return found[1] if found else "(the crate as a whole)"


def modules(crate):
    """Returns when each module was written, by which process, and the function that it is of."""
    for folder, _, names in os.walk(os.path.join(TOP, "crates", crate, "out", "incremental")):
        for name in names:
            written = os.lstat(os.path.join(folder, name))
            if written.st_nlink == 1 and not folder.endswith("records"):
                yield written.st_mtime_ns / 1e9, 0, function_of(name)


def traced(crate, log):
    """Returns the same, by a log of fatrace."""
    for line in log.read_text(errors="replace").splitlines():
        found = CLOSED.match(line)
        place = Path(found[5]) if found else Path()
        if f"/crates/{crate}/out/incremental/" in str(place) and place.parent.name != "records":
            yield int(found[1]) * 3600 + int(found[2]) * 60 + float(found[3]), int(found[4]), function_of(place.name)


def times(written):
    """Returns the seconds of each function."""
    seconds, before = Counter(), {}
    for when, process, function in sorted(written):
        if process in before and when - before[process] < MOST:
            seconds[function] += when - before[process]
        before[process] = when
    return seconds


def main():
    words = argparse.ArgumentParser(description=__doc__, formatter_class=argparse.RawDescriptionHelpFormatter)
    words.add_argument("--trace", metavar="LOG", type=Path)
    words.add_argument("name", metavar="NAME")
    words.add_argument("count", metavar="COUNT", nargs="?", type=int, default=20)
    asked = words.parse_args()
    found = times(traced(asked.name, asked.trace) if asked.trace else modules(asked.name))
    for function, seconds in found.most_common(asked.count):
        print(f"{seconds:6.1f} s  {function}")


if __name__ == "__main__":
    main()
