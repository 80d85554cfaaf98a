"""The tasks of rt ci side by side: as many as there are processors, and no more than free memory has room for.

rt's own estimate of memory is several times what a check of these crates takes, so that it runs nearly one at a time. How long a proof
takes is in docs/measured/gate.csv (tools/gate_times.py).
"""
import contextlib
import os
import threading
import time
import traceback
from concurrent.futures import FIRST_COMPLETED, ThreadPoolExecutor, wait

import kit
import measured
from edits import say

# The most memory that a task of each kind was seen to take, in bytes; that of tasks which take more; and what each job of a proof takes
# after the first.
MEMORY = {"proof": 3_600_000_000, "seed": 3_000_000_000, "tests": 4_500_000_000, "edits": 3_000_000_000, "sound": 3_000_000_000, "again": 0}
MORE_MEMORY = {("jsonb_raw", "tests"): 6_000_000_000}
MEMORY_OF_A_JOB = 800_000_000
# What the other commands of .ci/run take at the same time.
MEMORY_BESIDE = 2_000_000_000
# How many lines of a crate are proved in a minute, about, if it was not measured.
LINES = 700
# How much nicer than a proof the other tasks are to the processor.
NICE = 10
# The seconds before a task that an exception ended begins again.
PAUSE = 60
BEGUN = time.time()


def lanes_here():
    """Returns how many small checks this machine can do at a time: one a processor, as memory allows."""
    return max(1, min(kit.processors(), kit.free() // MEMORY["edits"]))


def expected(tasks):
    """Returns how many minutes each task is expected to take: as many as when it was measured, or by its lines."""
    took = {row["step"]: float(row["minutes"]) for row in measured.read("gate")}
    steps = {key: key[0] if key[1] == "proof" else " ".join(map(str, key)) for key in tasks}
    return {key: took.get(step, tasks[key][1] / LINES) for key, step in steps.items()}


def chains(tasks):
    """Returns the minutes from the start of each task to the end of the last one that waits for it, if none waits for a lane."""
    took, found = expected(tasks), {}

    def chain(key):
        if key not in found:
            found[key] = took[key] + max((chain(it) for it in tasks if key in tasks[it][0]), default=0)
        return found[key]

    return {key: chain(key) for key in tasks}


def jobs_of(key, proofs, lanes):
    """Returns how many jobs a task has: as many as there are lanes for a proof while there is no other one to make, otherwise one.

    Crates above wait for such a proof. Tests and edits, which are nicer, take what it leaves: it begins and ends with a minute or two of
    one process alone.
    """
    return lanes if key[1] == "proof" and len(proofs) == 1 else 1


class FreeMemory(threading.Thread):
    """Notes each second how much memory is free, so that the least of a run shows whether MEMORY expects too much."""

    def __init__(self):
        super().__init__(daemon=True)
        self.first = self.least = kit.free()

    def run(self):
        while True:
            time.sleep(1)
            self.least = min(self.least, kit.free())

    def line(self):
        return f"free memory: {self.first / 1e9:.1f} GB at first, {self.least / 1e9:.1f} GB at least"


def minutes(since):
    return f"{(time.time() - since) / 60:.1f} min"


def be_nice(by):
    """Lets what this thread starts wait for processes that are less nice."""
    with contextlib.suppress(OSError):
        os.setpriority(os.PRIO_PROCESS, threading.get_native_id(), by)


def do_task(key, call, *given):
    """Does a task, reports how long it took, and at once any edit that was proved, and returns its result.

    Other tasks wait for a proof, so what it does goes before what they do.
    """
    started, what = time.time(), " ".join(map(str, key))
    be_nice(0 if key[1] == "proof" else NICE)
    result = twice(what, call, given)
    if key[1] == "edits" and result and result[0] != kit.rt.REFUSED:
        say(result[1])
    if time.time() - started > 1:
        say(f"[{minutes(started)}, {minutes(BEGUN)} since the start] {what}")
    return result


def twice(what, call, given):
    """Returns what a call returns, which is made once more if an exception ends it: memory may have been short."""
    try:
        return call(*given)
    except Exception as why:
        say(f"{what} ended with {why!r}, and begins again:\n{traceback.format_exc()}")
        time.sleep(PAUSE)
        return call(*given)


def in_lanes(tasks):
    """Does tasks in parallel, up to the number of lanes, and returns the result of each by its key.

    A key begins with a crate's name and the kind of the task. A task is what it waits for, its work in lines, its memory,
    and a call that takes what was given so far and how many jobs it may use. Of those that are ready, that which begins the longest
    chain goes first. If a task does not fit into memory, those after it wait too.
    """
    lanes, memory, running, given = kit.processors(), kit.free() - MEMORY_BESIDE, {}, {}
    chain = chains(tasks)
    left = sorted(tasks, key=lambda it: -chain[it])
    with kit.rt.ending(), ThreadPoolExecutor(lanes) as pool:
        while left or running:
            ready = [it for it in left if all(below in given for below in tasks[it][0])]
            proofs = [it for it in [*ready, *(key for key, _ in running.values())] if it[1] == "proof"]
            for key in ready[: lanes - len(running)]:
                jobs = jobs_of(key, proofs, lanes)
                needs = MORE_MEMORY.get(key[:2], MEMORY[key[1]]) + (jobs - 1) * MEMORY_OF_A_JOB
                if running and needs + sum(it for _, it in running.values()) > memory:
                    break
                left.remove(key)
                running[pool.submit(do_task, key, tasks[key][-1], given, jobs)] = key, needs
            for it in wait(running, return_when=FIRST_COMPLETED).done:
                given[running.pop(it)[0]] = it.result()
    return given
