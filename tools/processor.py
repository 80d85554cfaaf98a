"""The processor time of the toolchain's commands, by crate and by what they do: rt begins them in threads of its own, so that no task of
tools/lanes.py knows what its commands took.
"""
import os
import subprocess
import threading
from collections import Counter, defaultdict

# The seconds of each kind of command and crate.
taken, adding = Counter(), threading.Lock()


def what_of(words):
    """Returns what a command of tools/gate.py does and with which crate, or None if it does nothing with a crate."""
    if "--crate-name" not in words[:-1]:
        return None
    kind = "tests" if "--test" in words else "mutants" if "check" in words else "proofs"
    return kind, words[words.index("--crate-name") + 1]


def wait_for(process, flags):
    """Waits for a process as subprocess does, and adds what it took, with the processes that it waited for."""
    try:
        number, status, used = os.wait4(process.pid, flags)
    except ChildProcessError:
        return process.pid, 0
    if number and isinstance(process.args, list):
        with adding:
            taken[what_of(process.args)] += used.ru_utime + used.ru_stime
    return number, status


def count():
    """Has the time counted of the processes that this one waits for from now on."""
    subprocess.Popen._try_wait = wait_for


def lines():
    """Returns a line for each kind of command, with the minutes of each crate, the longest first."""
    kinds = defaultdict(dict)
    for key, seconds in taken.most_common():
        if key:
            kinds[key[0]][key[1]] = seconds / 60
    return [f"{kind}, minutes of processor: {sum(its.values()):.0f} ({', '.join(f'{crate} {it:.1f}' for crate, it in its.items())})" for kind, its in kinds.items()]
