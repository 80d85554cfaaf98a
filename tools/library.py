#!/usr/bin/env python3
"""Whether the static library of crates/jsonb_c is of the sources that are here, which a release must be.

    library.py build             runs `rt lib` in crates/jsonb_c, and notes of which sources the library is
    library.py note [LIBRARY]    notes that a library is of these sources, without a look at it: tools/gate.py does this
    library.py check [LIBRARY]   fails if a library is not the noted one, or the sources are others than those noted

LIBRARY is crates/jsonb_c/out/libjsonb_c.a by default. The note is next to it, in libjsonb_c.sources: the checksums of the library and
of the sources, which are src, specs and proofs of jsonb_c and of the crates below it.
"""
import hashlib
import os
import shutil
import subprocess
import sys
from pathlib import Path

TOP = Path(__file__).resolve().parent.parent
CRATE = "jsonb_c"
LIBRARY = Path("crates") / CRATE / "out" / f"lib{CRATE}.a"


def crates(top):
    """Returns the crate and those of the repository below it."""
    lines = (top / "crates.txt").read_text().splitlines()
    below = {name.split()[0]: uses.split() for name, _, uses in (line.partition(":") for line in lines) if name.strip()}
    found = [CRATE]
    for name in found:
        found += [it for it in below[name] if it in below and it not in found]
    return sorted(found)


def sources(top):
    """Returns the checksum of the names and contents of the sources."""
    whole = hashlib.sha256()
    folders = [top / "crates" / name / part for name in crates(top) for part in ("src", "specs", "proofs")]
    for file in sorted(it for folder in folders for it in folder.rglob("*") if it.is_file()):
        whole.update(f"{file.relative_to(top)} {hashlib.sha256(file.read_bytes()).hexdigest()}\n".encode())
    return whole.hexdigest()


def note_of(library):
    return library.with_suffix(".sources")


def text_of(library, sum_of_sources):
    return f"library {hashlib.sha256(library.read_bytes()).hexdigest()}\nsources {sum_of_sources}\n"


def note(library, sum_of_sources):
    note_of(library).write_text(text_of(library, sum_of_sources))


def build(top):
    if not shutil.which("rt"):
        sys.exit("library: the toolchain's `rt` is not on the PATH; README.md, \"Without the toolchain\", says what needs none")
    before = sources(top)
    subprocess.run(["rt", "lib", "--jobs", "1"], cwd=top / "crates" / CRATE, check=True)
    if sources(top) != before:
        sys.exit("library: the sources changed while the library was built")
    note(top / LIBRARY, before)


def check(library, top):
    """Returns what is wrong with a library, or None."""
    if not library.is_file():
        return "there is none"
    if not note_of(library).is_file():
        return f"of which sources it is was not noted ({note_of(library).name})"
    noted, now = note_of(library).read_text(), text_of(library, sources(top))
    if noted == now:
        return None
    return "it is of other sources than those here" if noted.split("\n")[0] == now.split("\n")[0] else "it is not the library that was noted"


def main():
    words = sys.argv[1:]
    if not words or words[0] not in ("build", "note", "check") or len(words) > 2 - (words[0] == "build"):
        sys.exit(__doc__)
    library = Path(os.path.abspath(words[1])) if len(words) > 1 else TOP / LIBRARY
    if words[0] == "build":
        build(TOP)
    elif words[0] == "note":
        note(library, sources(TOP))
    elif wrong := check(library, TOP):
        sys.exit(f"{library}: {wrong}. `tools/library.py build` builds it.")


if __name__ == "__main__":
    main()
