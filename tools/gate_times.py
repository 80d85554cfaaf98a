#!/usr/bin/env python3
"""How long a gate took from scratch, from what .ci/run printed (LOG): the minutes of each crate's proof, of that of its tests, of each
group of its mutants, of tools/gate.py by the number of processors, and of bindings/test.sh, which runs at the same time as other tests.
tools/lanes.py begins with the longest chain of them.

    gate_times.py LOG             prints the figures
    gate_times.py LOG --write     writes them to docs/measured/gate.csv and the pages, except for those that the log lacks
"""
import re
import sys

import measured

PROOF = re.compile(r"\[([\d.]+) min, [\d.]+ min since the start\] (\w+(?: tests| edits \d+)?)(?: proof)?$", re.M)
GATE = re.compile(r"^gate: ([\d.]+) min, .* (on \d+ processors)$", re.M)
BINDINGS = re.compile(r"^bindings: ([\d.]+) min$", re.M)


def times(log):
    """Returns the minutes of each step that the log has."""
    found = {crate: minutes for minutes, crate in PROOF.findall(log)}
    found.update((f"{measured.WHOLE} {where}", minutes) for minutes, where in GATE.findall(log))
    found.update((measured.BINDINGS, minutes) for minutes in BINDINGS.findall(log))
    return found


def main():
    if sys.argv[2:] not in ([], ["--write"]) or len(sys.argv) < 2:
        sys.exit(__doc__)
    with open(sys.argv[1]) as log:
        found = times(log.read())
    if sys.argv[2:]:
        found = {row["step"]: row["minutes"] for row in measured.read("gate")} | found
    measured.report("gate", [{"step": step, "minutes": minutes} for step, minutes in found.items()], bool(sys.argv[2:]))


if __name__ == "__main__":
    main()
