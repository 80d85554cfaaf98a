"""Whether the prover's output rejects a mutant: a function fails on its own, or an edit outside all bodies breaks a proof.

A proof that names something which the edit took away says nothing of the contract: the body may be right, and the proof only needs
other names. Then no other error in that proof counts either, nor a goal of that function that is open, since the goals are no
longer those that the proof was written for.

tools/test_judge.py tests this on what the prover said of mutants, and of bodies that are right.
"""
import re

import edits

# An error in a proof: its folder, the goal whose proof it is in, if the prover names one, and what it says, with the rows below
# that go on, which are further right.
ERROR = re.compile(r"^\./proofs/(.*)/[^/]*: error: (?:`([^`]*)`: )?(.*(?:\n  .*)*)", re.M)
# What it says if the proof names something that the edit took away.
NAMES_WHAT_IS_GONE = re.compile(r"has no field|is not in scope(?! here, so what is shown)|has no `|was not admitted")
# What it says of an open goal without a written proof.
OPEN_GOAL = re.compile(r"^note: (src/\S+?):(\d+):\d+: it is not proved that", re.M)


def errors_of(function, paths, said):
    """Returns what the prover says of the errors in the proof of a function and its closures, which have these paths.

    A cycle of calls has one folder, in which the names of goals, invariants and measures begin with their function's. A lemma there
    has no hyphen in its name, and is of no function: all functions may use it, so a missing name in it counts for each.
    """
    own = re.compile(rf"(?:invariant-|decreases-)?{function.name}(?:-|$)")
    for folder, goal, error in ERROR.findall(said):
        if folder.rpartition("/")[2] == f"+{function.cycle}":
            is_own = own.match(goal) or "-" not in goal and NAMES_WHAT_IS_GONE.search(error)
        else:
            # (The folder of a function that calls itself alone has a plus before its name too.)
            is_own = re.sub(r"(^|/)\+", r"\1", folder).replace("/", "::") in paths
        if is_own:
            yield error


def has_open_goal(function, verdicts, said, texts):
    """Returns whether the prover's search left a goal of the function open: a verdict says so, or a note at a line of its."""
    places = [(path, int(line)) for path, line in OPEN_GOAL.findall(said) if path in texts]
    is_placed = function in [edits.function_at(path, texts[path], line) for path, line in places]
    return is_placed or any("did not prove" in it for it in verdicts)


def fault_of_function(crate, function, said, texts):
    """Returns why the prover's output does not reject the function on its own, or None if it does.

    `texts` holds the contents of the files that the edit changes, by their path.
    """
    lines = function.lines(crate, said)
    names = {name for name, _ in lines if "fn::" not in name}
    if len(names) != 1:
        return f"the prover speaks of {len(names)} functions {function}, and not of one"
    [name], refused = names, {path: verdict for path, verdict in lines if not verdict.startswith("proved")}
    if not refused:
        return f"{name} is still proved"
    errors = [*errors_of(function, refused, said)]
    if any(map(NAMES_WHAT_IS_GONE.search, errors)):
        return f"the proof of {name} names what the edit took away, which says nothing of the contract: keep the names"
    if errors or has_open_goal(function, refused.values(), said, texts):
        return None
    return f"{name} is refused only for what it calls: {lines[0][1][:120]}"


def may_hold(folder, path):
    """Returns whether a folder of proofs is that of a function, or that of a cycle which the function may be in."""
    *above, last = folder.split("/")
    *modules, name = path.split("::")
    return last.startswith("+") and modules[: len(above)] == above or [*above, last] == [*modules, name]


def fault_outside_bodies(said):
    """Returns why the prover's output does not reject an edit that is outside all bodies, or None if it does.

    One proof has to fail that names nothing which the edit took away.
    """
    errors = [(folder, error) for folder, _, error in ERROR.findall(said)]
    misled = {folder for folder, error in errors if NAMES_WHAT_IS_GONE.search(error)}
    open_in = re.findall(r"^fn \w+::(\S+): .*did not prove", said, re.M)
    is_open = any(not any(may_hold(folder, path) for folder in misled) for path in open_in)
    if is_open or any(folder not in misled for folder, _ in errors):
        return None
    return "nothing fails, or only proofs that name what the edit took away"
