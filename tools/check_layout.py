#!/usr/bin/env python3
"""Checks that all sources, definitions and proofs are in the layout of `rt fmt`. Without that `rt ci` proves neither a crate nor
those above it. The last line is 'N passed, M failed', a file each.
"""
import os
import shutil
import subprocess
import sys
from pathlib import Path

ROOT = Path(__file__).resolve().parent.parent
RATTLE = Path(os.path.realpath(shutil.which("rt") or "rt")).with_name("rattle")


def files():
    """Returns the files of all crates that `rt fmt` lays out."""
    return sorted(it for part in ("src", "specs", "proofs") for it in ROOT.glob(f"crates/*/{part}/**/*") if it.suffix in (".rt", ".antt"))


def main():
    laid = files()
    ran = subprocess.run([RATTLE, "fmt", "--check", *laid], stdout=subprocess.PIPE, stderr=subprocess.STDOUT, text=True)
    faults = [it for it in ran.stdout.splitlines() if it]
    print(*faults, sep="\n", end="\n" if faults else "")
    failed = len(faults) or int(ran.returncode != 0)
    print(f"{len(laid) - len(faults)} passed, {failed} failed")
    return 1 if failed else 0


if __name__ == "__main__":
    sys.exit(main())
