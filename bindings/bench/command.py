#!/usr/bin/env python3
"""Compares the command line with jq over JSON lines: seconds of processor time, the best of three runs, in turn.

  PYTHONPATH=bindings/python python3 bindings/bench/command.py [ROWS]      prints the figures
  PYTHONPATH=bindings/python python3 bindings/bench/command.py --write     writes docs/measured/jq.csv and the tables of pages

By default there are 100,000 rows, 30 MB.
"""

import os
import resource
import subprocess
import sys
import tempfile

from documents import people

sys.path.append(os.path.join(os.path.dirname(os.path.abspath(__file__)), "..", "..", "tools"))
import measured

ROWS = 100_000
COMMANDS = {
    "filter '$.age > 40'": "select(.age > 40)",
    "select '$.age'": ".age",
    "delete '{tags}'": "del(.tags)",
    "set '{active}' true": ".active = true",
    "keys": "keys",
}


def seconds(command, file):
    before = resource.getrusage(resource.RUSAGE_CHILDREN)
    subprocess.run(f"{command} {file}", shell=True, stdout=subprocess.DEVNULL, check=True)
    after = resource.getrusage(resource.RUSAGE_CHILDREN)
    return after.ru_utime + after.ru_stime - before.ru_utime - before.ru_stime


def compare(rows):
    """A row for each command."""
    with tempfile.TemporaryDirectory() as folder:
        file = os.path.join(folder, "people.jsonl")
        with open(file, "w") as out:
            out.writelines(f"{it}\n" for it in people(rows, "small"))
        for ours, theirs in COMMANDS.items():
            words = f"{sys.executable} -m jsonb_paths {ours}", f"jq -c '{theirs}'"
            first, second = (min(it) for it in zip(*([seconds(it, file) for it in words] for _ in range(3))))
            yield {"jdoc": f"`{ours}`", "jq": f"`{theirs}`", "jdoc_seconds": f"{first:.2f}", "jq_seconds": f"{second:.2f}"}


def main():
    is_written = sys.argv[1:] == ["--write"]
    rows = ROWS if is_written or len(sys.argv) < 2 else int(sys.argv[1])
    measured.report("jq", compare(rows), is_written)


if __name__ == "__main__":
    main()
