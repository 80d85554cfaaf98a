#!/usr/bin/env python3
"""Compares the Rust crate `jsonb` 0.5.6 and this library, on the cases of tools/speed/cases.py: instructions, times and allocations.

  measure_speed.py [--only WORD]         prints the figures of the cases with that word in their class or name, and a summary
  measure_speed.py --write               writes docs/measured/speed.csv and the tables of README.md and docs/PERFORMANCE.md
  measure_speed.py [--rounds N] ..       N rounds of times instead of 40; 0 counts instructions alone, and --write then keeps the times
  measure_speed.py --alone ..            does the same with every call of this library alone, without the Rust crate, for
                                         docs/measured/alone.csv and alone.md: instructions and allocations
  measure_speed.py --crate FOLDER ..     uses the Rust crate in a folder, without a network: its dependencies are found as its
                                         .cargo/config.toml says, if it has one

Needs `rt`, `cargo`, `cc` and `valgrind`. Proves the crates first if necessary (it builds the library as `rt lib` does). Works in
tools/speed/out and leaves the repository unchanged. Instructions are those of one call, without the loop around it. A time is the best
of all rounds in four processes, in which the two sides alternate, with one allocator that returns nothing to the system. Both are
built for x86-64-v2 at the highest level of optimization. Copies of the results in new vectors are timed as well.
"""
import argparse
import glob
import hashlib
import math
import os
import re
import shutil
import subprocess
import sys
from dataclasses import dataclass

sys.dont_write_bytecode = True
TOP = os.path.dirname(os.path.dirname(os.path.abspath(__file__)))
HERE = os.path.join(TOP, "tools", "speed")
OUT = os.path.join(HERE, "out")
sys.path[:0] = [os.path.join(TOP, "tools"), HERE]
import measured
from cases import EMPTY, alone_cases, cases

CRATES = ["jsonb_doc", "jsonb_keypath", "jsonb_raw", "jsonb"]
PROCESSES = 4
# Settings of the C library. The heap keeps what it got from the system. Otherwise it returns pages and requests them again in each call
# that allocates much, at a cost that depends on the end of the heap.
KEEPING = "glibc.malloc.trim_threshold=268435456:glibc.malloc.mmap_threshold=33554432"
# It copies and fills by vectors at any length. Otherwise `rep movsb` does from 2 or 8 KB on, of which valgrind counts each byte.
BY_VECTORS = "glibc.cpu.x86_rep_movsb_threshold=1099511627776:glibc.cpu.x86_rep_stosb_threshold=1099511627776"
# The functions of the C library that allocate.
ALLOCATE = {"malloc", "realloc", "calloc"}


def tuned(*settings):
    """The environment of a process whose C library has these settings."""
    return {**os.environ, "GLIBC_TUNABLES": ":".join(settings)}


# ---- building


def run(words, folder, **more):
    subprocess.run(words, cwd=folder, check=True, **more)


def checksum(crate):
    """Of what a person wrote of a crate."""
    found = hashlib.sha256()
    for folder, folders, files in os.walk(crate):
        folders[:] = sorted(set(folders) - {"out"})
        for name in sorted(files):
            path = os.path.join(folder, name)
            found.update(f"{os.path.relpath(path, crate)} {os.path.getsize(path)} ".encode() + open(path, "rb").read())
    return found.digest()


def copied(source, target):
    """Links what was proved, which is large and is never changed in place, and copies all else."""
    (os.link if f"{os.sep}out{os.sep}" in source.removeprefix(TOP) else shutil.copy2)(source, target)


def our_library():
    """The static library over a copy of the crates, with what was proved of them kept."""
    copy = os.path.join(OUT, "repository")
    os.makedirs(os.path.join(copy, "crates"), exist_ok=True)
    shutil.copy(os.path.join(TOP, "HANDLES"), copy)
    lines = [line for line in open(os.path.join(TOP, "crates.txt")) if line.split(":")[0] in CRATES]
    with open(os.path.join(copy, "crates.txt"), "w") as crates:
        crates.writelines([*lines, f"jsonb_speed staticlib: {' '.join(CRATES)}\n"])
    for name in CRATES:
        source, target = (os.path.join(top, "crates", name) for top in (TOP, copy))
        if checksum(source) != checksum(target):  # (otherwise what was built of it is kept)
            shutil.rmtree(target, ignore_errors=True)
            shutil.copytree(source, target, copy_function=copied)
    crate = os.path.join(copy, "crates", "jsonb_speed")
    # It is not a crate of the repository, so its files have another ending: the gate rejects such files outside of crates/.
    os.makedirs(os.path.join(crate, "src"), exist_ok=True)
    for file in glob.glob(os.path.join(HERE, "*.rt.txt")):
        name = os.path.basename(file).removesuffix(".txt")
        shutil.copy(file, os.path.join(crate, "src", "lib.rt" if name == "jsonb_speed.rt" else name))
    run(["rt", "lib"], crate)
    return os.path.join(crate, "out", "libjsonb_speed.a")


def c_library():
    """The C library that the toolchain links, which allocates for this library."""
    return os.path.join(os.path.dirname(subprocess.check_output(["rt", "doc"], text=True).strip()), "c", "liblibc_c.a")


def cargo_build(rust_crate, flags, *words):
    """Builds what is in rust/ with the Rust crate, from the registry or from a folder, and returns the folder with what it made."""
    words = ["cargo", "build", "--release", *words, "--target-dir", os.path.join(OUT, "cargo")]
    if rust_crate:
        crate = os.path.abspath(rust_crate)
        settings = os.path.join(crate, ".cargo", "config.toml")
        words += ["--offline", "--config", f'patch.crates-io.jsonb.path="{crate}"']
        words += ["--config", settings] if os.path.exists(settings) else []
    run(words, os.path.join(HERE, "rust"), env={**os.environ, "RUSTFLAGS": f"-C target-cpu=x86-64-v2 {flags}"})
    return os.path.join(OUT, "cargo", "release")


def driver(rust_crate):
    library = our_library()
    # The sum has cargo link again where the library is another one.
    linked = hashlib.sha256(open(library, "rb").read()).hexdigest()
    flags = f"-C link-arg={library} -C link-arg={c_library()} --cfg made_with_{linked}"
    return os.path.join(cargo_build(rust_crate, flags, "--bin", "speed"), "speed")


def c_driver():
    """The program calls.c with this library alone."""
    program = os.path.join(OUT, "calls")
    run(["cc", "-std=gnu11", "-O2", "-Wall", "-Wextra", "-o", program, os.path.join(HERE, "calls.c"), our_library(), c_library()], HERE)
    return program


def write_files(chosen):
    """Writes cases for calls.c, each with three files."""
    path, folder = os.path.join(OUT, "alone.tsv"), os.path.join(OUT, "alone")
    shutil.rmtree(folder, ignore_errors=True)
    os.makedirs(folder)
    with open(path, "w") as lines:
        for number, case in enumerate(chosen):
            names = []
            for part in (case.argument.encode(), case.other, case.document):
                names.append(os.path.join(folder, f"{number}.{len(names)}") if part else "-")
                if part:
                    with open(names[-1], "wb") as file:
                        file.write(part)
            lines.write("\t".join([case.call, str(number), case.call, *names]) + "\n")
    return path


def write_cases(chosen):
    path = os.path.join(OUT, "cases.tsv")
    with open(path, "w") as file:
        for case in chosen:
            parts = [case.argument.encode(), case.other, case.document]
            file.write("\t".join([case.name, case.call, *(part.hex() for part in parts)]) + "\n")
    return path


# ---- measuring


@dataclass
class Cost:
    """Of one call."""

    instructions: int
    allocations: int


def times_of_one(program, path, rounds):
    said = subprocess.check_output([program, path, str(rounds)], text=True, env=tuned(KEEPING))
    lines = [line.split("\t") for line in said.splitlines()]
    return [[float(side) for side in sides] for _, *sides in lines]


def times(program, path, rounds):
    """The best of all processes: the positions of the stack and the heap of one cost a case up to a third."""
    found = [times_of_one(program, path, -(-rounds // PROCESSES)) for _ in range(PROCESSES)]
    return [[min(side) for side in zip(*one)] for one in zip(*found)]


def dumps(lines):
    """The cost of the calls of each dump that callgrind wrote."""
    names, function, callee, allocations = {}, "", "", 0
    for line in lines:
        if found := re.match(r"(c?)fn=\((\d+)\)(?: (.*))?", line):
            is_callee, number, name = found.groups()
            named = names.setdefault(number, name)
            function, callee = (function, named) if is_callee else (named, "")
        elif callee in ALLOCATE and function not in ALLOCATE and (made := re.match(r"calls=(\d+)", line)):
            allocations += int(made[1])
        elif total := re.match(r"totals: (\d+)", line):
            yield Cost(int(total[1]), allocations)
            allocations = 0


def costs(*words):
    """The costs of each case on each side, by the difference of one call and two."""
    out = os.path.join(OUT, "callgrind.out")
    options = ["--toggle-collect=counted", "--dump-after=counted", "--combine-dumps=yes", f"--callgrind-out-file={out}"]
    subprocess.run(["valgrind", "--tool=callgrind", *options, *words], check=True, capture_output=True, env=tuned(KEEPING, BY_VECTORS))
    with open(out) as file:
        found = list(dumps(file))
    os.remove(out)
    one, two = found[1:-1:3], found[2:-1:3]
    return [Cost(t.instructions - o.instructions, t.allocations - o.allocations) for o, t in zip(one, two)]


def measure(program, chosen, rounds):
    """A row of docs/measured/speed.csv for each case."""
    path = write_cases([EMPTY, *chosen])
    each = costs(program, path, "counts")
    empty, *counted = zip(each[0::2], each[1::2])
    _, *timed = times(program, path, rounds) if rounds else [["", "", math.inf]] * (1 + len(chosen))
    whole = lambda number: "" if number in ("", math.inf) else f"{number:.0f}"
    for case, sides, nanoseconds in zip(chosen, counted, timed):
        instructions = [side.instructions - loop.instructions for side, loop in zip(sides, empty)]
        figures = [*instructions, *nanoseconds, *(side.allocations for side in sides)]
        yield dict(zip(measured.COLUMNS["speed"], [case.size_class, case.name, *map(whole, figures)]))


def measure_alone(program, chosen):
    """A row of docs/measured/alone.csv for each case with its type."""
    empty, *counted = costs(program, "twice", write_files([EMPTY, *(case for _, case in chosen)]))
    for (type_of, case), cost in zip(chosen, counted):
        call, _, what = case.name.partition(" ") if type_of == "text" else case.name.rpartition(", ")
        figures = [cost.instructions - empty.instructions, cost.allocations]
        yield dict(zip(measured.COLUMNS["alone"], [type_of, call, what, *map(str, figures)]))


def with_kept_times(rows):
    """Returns the rows with the times of docs/measured/speed.csv."""
    kept = {(row["class"], row["case"]): row for row in measured.read("speed")}
    for row in rows:
        before = kept.get((row["class"], row["case"]), {})
        yield row | {it: before.get(it, "") for it in ("rust_ns", "this_ns", "result_copy_ns")}


def main():
    words = argparse.ArgumentParser(description=__doc__, formatter_class=argparse.RawDescriptionHelpFormatter)
    words.add_argument("--rounds", type=int, default=40)
    words.add_argument("--only", default="")
    words.add_argument("--crate")
    words.add_argument("--alone", action="store_true")
    words.add_argument("--write", action="store_true")
    asked = words.parse_args()
    if asked.write and asked.only:
        words.error("--write takes all cases")
    os.makedirs(OUT, exist_ok=True)
    is_chosen = lambda case: asked.only in f"{case.size_class}: {case.name}"
    if asked.alone:
        rows = list(measure_alone(c_driver(), [(type_of, case) for type_of, case in alone_cases() if is_chosen(case)]))
        return measured.report("alone", rows, asked.write)
    chosen = [case for case in cases() if is_chosen(case)]
    program = driver(asked.crate)
    rows = list(measure(program, chosen, asked.rounds))
    rows = rows if asked.rounds else list(with_kept_times(rows))
    measured.save("speed", rows) if asked.write else print(measured.as_csv("speed", rows), end="")
    print(measured.speed_report(rows), file=sys.stderr)


if __name__ == "__main__":
    main()
