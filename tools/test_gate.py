#!/usr/bin/env python3
"""Tests .ci/run, with commands that do nothing in the place of those that it counts: it must fail if one of them fails, counts nothing,
skips a test or is killed, and repeat the last lines of that command at the end, those of the proofs last; and the library of
bindings/c is made by one command at a time. Tests which errors tools/gate.py repeats, and that they are its last lines, how many
tasks it does at a time, and in which order, how it does those of an older kit, and that rt is given all mutants in few files. Tests which
times are counted.

    tools/test_gate.py        the last line is 'N passed, M failed'
"""
import io
import re
import shlex
import shutil
import subprocess
import sys
import tempfile
import threading
import time
from pathlib import Path
from types import SimpleNamespace

sys.dont_write_bytecode = True
import check_counts
import check_edits
import gate
import group_edits
import kit
import lanes
import older_rt
import processor
import reasons
import results

TOP = Path(__file__).resolve().parent.parent
GATE = ".ci/run"
WELL = "echo 1 passed, 0 failed"
FAILURE = "echo 1 passed, 1 failed; exit 1"
# A failure that prints many lines, and those of them that are repeated.
LONG_FAILURE = f"seq 100; {FAILURE}"
REPEATED_ROWS = [*map(str, range(78, 101)), "1 passed, 1 failed"]
# How a line begins that names a failed command, at the end, and one that names a command which was not run.
REPEATED = "== failed: "
NOT_RUN = "not run, as the gate has not built "
TOTAL = re.compile(r"(\d+) passed, (\d+) failed")
# What one of the commands does in the place of what all others do, and how many have failed then, at least.
CASES = {
    "2 passed, 0 failed": ("echo 2 passed, 0 failed", 0),
    "3 failures": ("echo 2 passed, 3 failed; exit 1", 3),
    "3 failures, status 0": ("echo 2 passed, 3 failed", 3),
    "status 1": (f"{WELL}; exit 1", 1),
    "another last line": (f"{WELL}; echo at last", 1),
    "no line": ("true", 1),
    "no test": ("echo 0 passed, 0 failed", 1),
    "a test is skipped": (f"echo skipped: one: no compiler; {WELL}", 1),
    "two tests are skipped": (f"echo skipped: one; echo skipped: two; {WELL}", 2),
    "killed": ("kill -9 $$", 1),
    "killed with what counts it": ("kill -9 $(ps -o ppid= $$); kill -9 $$", 1),
}
# What rt ci prints of crates, and what tools/gate.py repeats of it.
OPEN_GOAL = "note: src/low.rt:3:1: it is not proved that the result is as stated (`returns-clause`)"
MISSING_NAME = "./proofs/one/Answers.antt:5:55: error: `returns-clause`: it is not in scope"
NOT_PROVED = "fn low::one: not proved"
STOPPED = "rt: src/lib.rt:7: this import calls a tactic"
ENDED = "low: the program ended with status 1, and not 0; it said: no memory"
CALLER = "fn low::two: not proved; it calls `low::one`, which is not proved"
PROVED_MUTANT = "must-fail low/b.edit: NOT REFUSED: the crate is still proved with this edit"
MANY = [f"{MISSING_NAME} {number}" for number in range(20)]
PRINTED = {
    "a proof": (["== low", OPEN_GOAL, "rt: low proved"], []),
    "an open goal": (
        ["== low", "fn low::error::Error: proved", NOT_PROVED, CALLER, OPEN_GOAL, "rt: low NOT PROVED"],
        ["not proved: low", f"  {OPEN_GOAL}", f"  {NOT_PROVED}"],
    ),
    "more errors": (["== low", *MANY, "rt: low NOT PROVED"], ["not proved: low", *(f"  {it}" for it in MANY[:10])]),
    "no error": (["== low", "Killed", "rt: low NOT PROVED"], ["not proved: low", "  Killed"]),
    "a long line": (["== low", f"error: {'x' * 999}", "rt: low NOT PROVED"], ["not proved: low", f"  error: {'x' * 233}"]),
    "tests of it": (["== low: its tests", "rt: the crate itself is not proved", "rt: low: its tests are NOT PROVED"], []),
    "its library": (["== low", OPEN_GOAL, "rt: low NOT PROVED", "rt: high NOT PROVED: its library low failed"], ["not proved: low", f"  {OPEN_GOAL}"]),
    "mutants": (["must-fail low/a.edit: refused, as it must be", *2 * [f"rt: {PROVED_MUTANT}"]], [PROVED_MUTANT]),
    "its tests": (
        ["== low", "rt: low proved", "== low: its tests", MISSING_NAME, "rt: low: its tests are NOT PROVED"],
        ["not proved: low: its tests", f"  {MISSING_NAME}"],
    ),
    "a line without an end": (["== low", MISSING_NAME, "checked low::onert: low NOT PROVED"], ["not proved: low", f"  {MISSING_NAME}"]),
    "a text that rt rejects": ([STOPPED, "rt: low NOT PROVED", "rt: high NOT PROVED: its library low failed"], ["not proved: low", f"  {STOPPED}"]),
    "what tests print": (
        ["tests: 1", "test a ... ok", "test result: ok. 1 passed; 0 failed", "rt: low: its tests passed",
         "tests: 2", "test b ... ok", "test c ... FAILED", "    row 5", "test result: FAILED. 1 passed; 1 failed", "rt: high: its tests FAILED"],
        ["tests failed: high", "  test c ... FAILED", "  row 5"],
    ),
    "an exception": (["rt: low proved", "gate: ended by KeyError('low')"], ["gate: ended by KeyError('low')"]),
    "a program": ([f"rt: {ENDED}", "rt: high ran, and wrote what its file stdout has"], [ENDED]),
    "many proofs": (
        [row for number in range(8) for row in (f"== low{number}", *MANY, f"rt: low{number} NOT PROVED")],
        [row for number in range(8) for row in (f"not proved: low{number}", *(f"  {it}" for it in MANY[: 2 if number < 6 else 1]))],
    ),
}
# Commands of the toolchain, and what each does with which crate.
COMMANDS = {
    "rattle build --crate-name low src/lib.rt --incremental out": ("proofs", "low"),
    "rattle build --crate-name low src/lib.rt --test": ("tests", "low"),
    "rattle check --crate-name low src/lib.rt --only one": ("mutants", "low"),
    "rattle check --help": None,
}
# The free memory of a machine with four processors, in GB, and how many crates' tests are proved there at a time.
LANES = {30: 4, 15: 2, 3: 1}
# How many proofs can be made at a time, and how many jobs the first of them has on four processors.
JOBS = {1: 4, 2: 1, 3: 1, 5: 1}
# The minutes of some tasks, and what each waits for, in the order in which one processor does them.
CHAINS = {
    ("low", "proof"): (5, []),
    ("high", "proof"): (2, [("low", "proof")]),
    ("high", "tests"): (7, [("high", "proof")]),
    ("apart", "proof"): (6, []),
    ("low", "tests"): (3, [("low", "proof")]),
}
# What the prover makes of the edits of a crate under rt of an older kit, one after the other if it tries one again; whether the crate is
# proved; and which edits count as rejected.
OLDER = [
    ({"a.edit": [True], "b.edit": [False, False]}, True, {"a.edit": True, "b.edit": False}),
    ({"a.edit": [False, True]}, True, {"a.edit": True}),
    ({"a.edit": []}, False, {"a.edit": False}),
]
# The crates whose programs and library other commands wait for.
BUILT = ("jsonb_c", "jsonb_lines", "jsonb_sweep", "jsonb_tool")
# The rule that makes the library of bindings/c, and the commands that must begin after it.
LIBRARY = "all deep: made\nmade:\n\tmkdir begun && sleep 0.3 && touch made\n"
USES_LIBRARY = ("tools/fuzz.py", "tools/measure_stack.py")
# The commands that need what the gate builds.
WAITING = (*USES_LIBRARY, "bindings/test.sh", "tools/sweep_memory.sh")


def write_program(path, lines):
    """Writes a program in the shell. Python runs it too, if its name says so."""
    path.parent.mkdir(parents=True, exist_ok=True)
    script = f"#!/usr/bin/env bash\n{lines}\n"
    if path.suffix == ".py":
        script = f"#!/usr/bin/env python3\nimport os, sys\nos.execvp('bash', ['bash', '-c', {script!r}, *sys.argv])\n"
    path.write_text(script)
    path.chmod(0o755)


def file_of(command):
    """Returns the file that a command runs."""
    return next(it for it in shlex.split(command) if "/" in it)


def run(room, broken):
    """Runs .ci/run with commands of which some are broken, each by what it does, and returns its other lines, its last one and its status."""
    shutil.rmtree(room, ignore_errors=True)
    (room / ".ci").mkdir(parents=True)
    shutil.copy(TOP / GATE, room / GATE)
    write_program(room / "bindings/setup.sh", "true")
    for command in check_counts.commands():
        lines = broken.get(command, WELL)
        if file_of(command) == "tools/gate.py" and lines == WELL:
            lines = f"for it in {' '.join(BUILT)}; do sleep 0.1; : >\"$2/$it\"; done; {lines}"
        if file_of(command) in USES_LIBRARY and lines == WELL:
            lines = f"test -e bindings/c/made || exit 1; {lines}"
        write_program(room / file_of(command), lines)
    (room / "bindings/c").mkdir()
    (room / "bindings/c/Makefile").write_text(LIBRARY)
    ran = subprocess.run([room / GATE], stdin=subprocess.DEVNULL, stdout=subprocess.PIPE, stderr=subprocess.DEVNULL, text=True, timeout=600)
    *said, last = ran.stdout.splitlines() or [""]
    return said, last, ran.returncode


def fault_of_run(room, command, how, faults):
    """Returns what is wrong with .ci/run if a command does this, or an empty text. There are as many failures, at least."""
    said, last, status = run(room, {command: how})
    total = TOTAL.fullmatch(last)
    if not total or bool(faults) != bool(int(total[2])) or int(total[2]) < faults or status != (faults > 0):
        return f"expected {faults} failures, got {last!r}, status {status}"
    repeated = [it for it in said if it.startswith(REPEATED)]
    # (Nothing is noted of a command that is killed with what counts it.)
    expected = bool(faults) and how != CASES["killed with what counts it"][0]
    if len(repeated) != expected or not all(it.startswith(REPEATED + command) for it in repeated):
        return f"expected {int(expected)} command at the end, got {repeated}"
    return ""


def fault_of_end(room, command):
    """Returns what is wrong with the end of what .ci/run prints if a command that prints many lines fails, or an empty text."""
    said, *_ = run(room, {command: LONG_FAILURE})
    heading, *rest = said[-25:]
    is_right = heading.startswith(REPEATED + command) and rest == REPEATED_ROWS
    return "" if is_right else f"expected the last 24 lines of {command} at the end, got {said[-25:]}"


def fault_of_last(room, proofs, other, seconds):
    """Returns what is wrong with the end if the proofs and another command fail that many seconds apart, or an empty text.

    The lines of the proofs are the last ones, whichever fails first.
    """
    how = {proofs: f"sleep {max(0, seconds)}; {LONG_FAILURE}", other: f"sleep {max(0, -seconds)}; {LONG_FAILURE}"}
    said, *_ = run(room, how)
    headings = [it for it in said[-50:] if it.startswith(REPEATED)]
    is_right = [*map(str.startswith, headings, (REPEATED + other, REPEATED + proofs))] == [True, True] and said[-24:] == REPEATED_ROWS
    return "" if is_right else f"{other}, {seconds} s apart: expected the lines of the proofs last, got {headings}, {said[-24:]}"


def fault_of_not_run(room, proofs, waiting):
    """Returns what is wrong with what is printed of the commands that wait for what the proofs have not built, or an empty text."""
    said, last, _ = run(room, {proofs: LONG_FAILURE})
    end = said[-25 - len(waiting) :]
    named = {it.rpartition(": ")[2] for it in end if it.startswith(NOT_RUN)}
    is_right = named == {*waiting} and end[-25].startswith(REPEATED + proofs) and int(TOTAL.fullmatch(last)[2]) == 1 + len(waiting)
    return "" if is_right else f"expected a line for each of {waiting} and then those of the proofs, got {last!r}, {end}"


def fault_of_errors(room, command):
    """Returns what is wrong with the end if a command is ended by an exception, which is on its standard error, or an empty text."""
    said, *_ = run(room, {command: "echo at first; echo error: no memory >&2; exit 1"})
    return "" if said[-2:] == ["at first", "error: no memory"] else f"expected the error of {command} at the end, got {said[-2:]}"


def fault_of_times(room):
    """Returns what is wrong with the times that .ci/run prints of its commands, or an empty text."""
    said, *_ = run(room, {})
    told = [it[1].split()[0] for it in (re.fullmatch(r"time: \d+\.\d min, \d+\.\d min of processor: +(?:python3 )?(.*)", row) for row in said) if it]
    wanted = [file_of(it) for it in check_counts.commands()]
    return "" if sorted(told) == sorted(wanted) else f"expected the times of {wanted}, got {told}"


def fault_of_processor():
    """Returns what is wrong with the times that are counted of the toolchain's commands, or an empty text."""
    found = [processor.what_of(it.split()) for it in COMMANDS]
    if found != [*COMMANDS.values()]:
        return f"expected {[*COMMANDS.values()]}, got {found}"
    before, wait = processor.taken.copy(), subprocess.Popen._try_wait
    processor.count()
    try:
        subprocess.run([sys.executable, "-c", "for it in range(10 ** 6): pass", *next(iter(COMMANDS)).split()], check=True)
    finally:
        subprocess.Popen._try_wait = wait
    took = processor.taken - before
    processor.taken.clear()
    return "" if [*took] == [("proofs", "low")] and took.total() > 0.01 else f"expected the time of one proof, got {took}"


def end_of_gate(status, printed, complained):
    """Returns what tools/gate.py prints at the end of a run of rt ci that printed these rows, and its status."""
    outputs, gate.sys.stdout, gate.sys.stderr = (sys.stdout, sys.stderr), gate.Output(io.StringIO()), gate.Output(io.StringIO())
    try:
        for it in printed:
            gate.sys.stdout.buffer.write(f"{it}\n".encode())
        for it in complained:
            print(it, file=gate.sys.stderr)
        ended = gate.report(status, 0)
        return sys.stdout.to.getvalue().splitlines()[len(printed) :], ended
    finally:
        sys.stdout, sys.stderr = outputs


def fault_of_gate(status, complained, expected):
    """Returns what is wrong with the last lines of tools/gate.py after a run of rt ci that failed, or ended well, or an empty text."""
    printed = ["== low", "rt: low NOT PROVED", "rt: FAILED: low", "0 passed, 1 failed"] if status else ["rt: ok", "1 passed, 0 failed"]
    (time_of, *end), ended = end_of_gate(status, printed, complained)
    is_right = end == [*expected, printed[-1]] and ended == status and time_of.startswith("gate: ")
    return "" if is_right else f"expected {expected} at the end of the gate, got {end}, status {ended}"


def fault_of_reasons(printed, expected):
    """Returns what is wrong with the errors that are repeated of what rt ci prints, or an empty text."""
    found = reasons.reasons("".join(f"{it}\n" for it in printed))
    return "" if found == expected else f"expected {expected}, got {found}"


def fault_of_lanes(free, expected):
    """Returns what is wrong with how many tasks are done at a time with this much free memory, or an empty text."""
    kit.processors, kit.free = lambda: 4, lambda: free * 10**9
    running, most, lock = 0, 0, threading.Lock()

    def call(given, jobs):
        nonlocal running, most
        with lock:
            running += 1
            most = max(most, running)
        time.sleep(0.1)
        with lock:
            running -= 1
        return True

    done = lanes.in_lanes({(f"crate{number}", "tests"): ([], 100, 0, call) for number in range(8)})
    return "" if most == expected and len(done) == 8 else f"{free} GB: expected {expected} of 8 tasks at a time, got {most} of {len(done)}"


def fault_of_jobs(number, expected):
    """Returns what is wrong with the jobs of the first of some proofs, or an empty text."""
    proofs = [(f"crate{it}", "proof") for it in range(number)]
    found = lanes.jobs_of(proofs[0], proofs, 4)
    return "" if found == expected else f"{number} proofs: expected {expected} jobs, got {found}"


def fault_of_chains():
    """Returns what is wrong with the order in which one processor does tasks, or an empty text."""
    kit.processors, kit.free, done = lambda: 1, lambda: 30 * 10**9, []
    made = sorted(CHAINS)
    lanes.in_lanes({key: (CHAINS[key][1], CHAINS[key][0] * lanes.LINES, 0, lambda given, jobs, key=key: done.append(key) or True) for key in made})
    return "" if done == [*CHAINS] else f"expected the tasks in the order {[*CHAINS]}, got {done}"


def older(tried, is_proved, noted):
    """Returns an rt of an older kit with one crate, whose ci notes what it is given of the crate's edits."""
    crate = SimpleNamespace(name="low", folder="crates/low")
    tasks = {("low", kind): ([("low", "proof")] * (kind != "proof"), 1, 0, lambda *_: is_proved) for kind in older_rt.KINDS}
    rt = SimpleNamespace(rtlib=SimpleNamespace(crates_below=lambda top: [crate]), edits_of=lambda it: ([f"must-fail/{name}" for name in tried], []))
    rt.must_fail = lambda crate, edit, flags, kept: (tried[edit.rpartition("/")[2]].pop(0), "said of it")
    rt.edited = lambda edit, folder: ({"tools/results.py": edit}, None)
    rt.in_lanes, rt.ci = lanes.in_lanes, lambda: noted.append(rt.in_lanes(tasks)["low", "edits"])
    return rt


def fault_of_older(tried, is_proved, expected):
    """Returns what is wrong with how the edits of a crate are tried by an older rt, or an empty text."""
    kit.processors, kit.free, noted = lambda: 2, lambda: 30 * 10**9, []
    rt = older({name: [*its] for name, its in tried.items()}, is_proved, noted)
    if not older_rt.complete(rt) or older_rt.complete(rt):
        return "an older rt is not completed once"
    rt.ci()
    [(bad, good, results)] = noted
    found = {Path(file).name: is_refused for file, (is_refused, _) in zip(good, results)}
    return "" if found == expected and not bad else f"{tried}: expected {expected}, got {found}"


def fault_of_no_change():
    """Returns what is wrong with how an older rt reads an edit that changes nothing, and one that does, or an empty text."""
    rt = older({}, True, [])
    older_rt.complete(rt)
    same = (TOP / "tools/results.py").read_text()
    found = [bool(rt.edited(it, str(TOP))[1]) for it in (same, f"{same}\n")]
    return "" if found == [True, False] else f"expected an edit that changes nothing to be rejected alone, got {found}"


def faults_of_groups():
    """Yields what is wrong with the edit files that rt is given of each crate: they hold each mutant once, and the largest are full."""
    crates = [it for it in kit.rt.rtlib.crates_below(str(TOP)) if kit.rt.edits_of(it)[0]]
    alone = {it.name: kit.rt.edits_of(it)[0] for it in crates}
    check_edits.judge_by_function()
    for crate in crates:
        files, bad = kit.rt.edits_of(crate)
        found = [sorted(it.words for it in group_edits.read_edits(file, crate.folder)) for file in files]
        expected = sorted(Path(it).stem.replace("_", " ") for it in alone[crate.name])
        is_right = sorted(sum(found, [])) == expected and not bad and max(map(len, found)) >= min(len(expected), group_edits.MOST) / 2
        yield "" if is_right else f"{crate.name}: {len(expected)} mutants are in groups of {[*map(len, found)]}"


def faults():
    """Yields what is wrong in each case, and an empty text for each in which nothing is."""
    commands = check_counts.commands()
    # (The gate itself is killed, so that nothing is built.)
    first = [*CASES].index("killed")
    tried = [(commands[(number - first) % len(commands)], *it) for number, it in enumerate(CASES.values())]
    with tempfile.TemporaryDirectory(prefix="test-gate-") as folder:
        room = Path(folder) / "repository"
        for command, how, number in [(None, WELL, 0), *tried]:
            yield named(f"{command}: {how}", fault_of_run(room, command, how, number))
        yield from (fault_of_end(room, it) for it in commands[:2])
        yield from (fault_of_last(room, *commands[:2], seconds) for seconds in (1, -1))
        yield fault_of_not_run(room, commands[0], [it for it in commands if file_of(it) in WAITING])
        yield fault_of_errors(room, commands[1])
        yield fault_of_times(room)
    yield fault_of_processor()
    yield fault_of_gate(1, [STOPPED], ["not proved: low", f"  {STOPPED}"])
    yield fault_of_gate(0, [STOPPED], [])
    for words, it in PRINTED.items():
        yield named(words, fault_of_reasons(*it))
    yield from (fault_of_lanes(*it) for it in LANES.items())
    yield from (fault_of_jobs(*it) for it in JOBS.items())
    yield fault_of_chains()
    yield from (fault_of_older(*it) for it in OLDER)
    yield fault_of_no_change()
    yield from faults_of_groups()


def named(words, fault):
    return f"{words}: {fault}" if fault else ""


def main():
    return results.report(faults())


if __name__ == "__main__":
    sys.exit(main())
