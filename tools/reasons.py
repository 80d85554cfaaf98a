"""Why a run of rt ci has failed, from what it printed: the first errors of each proof that failed, tests and programs that failed, and the
mutants that are not rejected."""
import re

# What is printed of the proof of a crate, or of its tests, that failed. A crate whose library failed has only the last line. (The prover's
# own last line has no end if it was killed.)
FAILED_PROOF = re.compile(r"^== (\w+)(|: its tests)\n(.*?)rt: \1\2(?: are)? NOT PROVED$", re.M | re.S)
# A row that gives a reason, and one that names a function which is not proved on its own. (A note of rt is not a reason.)
REASON = re.compile(r"(?:^|: )error: |it is not proved that|did not prove|panicked at|^rt: (?!note: )")
FUNCTION = re.compile(r"^fn \S+: not proved(?!; it calls)")
# What rt prints of tests if their crate is not proved.
UNTRIED = "rt: the crate itself is not proved\n"
# A crate whose text rt rejects before it proves any, and why.
STOPPED = re.compile(r"^(rt: .*\n)?rt: (\w+) NOT PROVED$", re.M)
# What the tests of a crate print if one fails, and a row of them that says nothing of it.
FAILED_TESTS = re.compile(r"^tests: \d+\n((?:(?!tests: ).*\n)*?)rt: (\w+): its tests FAILED$", re.M)
PASSED_TEST = re.compile(r"^test (?:\S+ \.\.\. (?:ok|ignored)|result: .*)$")
# A program that does not end or write as it must.
PROGRAM = re.compile(r"^rt: (\w+(?: \([^)]*\))?: (?:the program |what the program wrote, |the file ).*|\w+ was not run: .*)$", re.M)
# An exception that ended tools/gate.py.
ENDED = re.compile(r"^(gate: ended by .*)$", re.M)
# A mutant that was not rejected, or not tried.
MUTANT = re.compile(r"^(?:rt: )?(must-fail \S+: (?:NOT|BAD) .*)$", re.M)
# The most rows of a proof, and characters of a row, that are kept; and the most rows of all. .ci/run shows two more: that on the time, and
# the last.
MOST = 10
LONGEST = 240
MOST_OF_ALL = 22


def rows_with(patterns, rows):
    """Returns the first rows that match the first of the patterns, the second and so on, or the last ones if none matches."""
    found = [it for wanted in patterns for it in rows if wanted.search(it)]
    return [f"  {it[:LONGEST]}" for it in [*dict.fromkeys(found)][:MOST] or rows[-MOST:]]


def rows_of(said):
    return [*filter(None, map(str.strip, said.splitlines()))]


def failed_proofs(said, complained):
    """Yields rows for each crate that is not proved, or not its tests, by its own fault. What it printed may be empty: rt stopped."""
    found = [it for it in FAILED_PROOF.findall(said) if UNTRIED not in it[2]]
    for name, tests, text in found:
        yield [f"not proved: {name}{tests}", *rows_with((REASON, FUNCTION), rows_of(text) or rows_of(complained))]
    begun = {*re.findall(r"^== (\w+)\n", said, re.M)}
    for why, name in STOPPED.findall(said):
        if name not in begun:
            yield [f"not proved: {name}", *rows_with((REASON,), rows_of(why) or rows_of(complained))]


def failed_tests(said):
    """Yields rows for each crate whose tests failed."""
    for text, name in FAILED_TESTS.findall(said):
        failed = [it for it in rows_of(text) if not PASSED_TEST.match(it)]
        yield [f"tests failed: {name}", *(f"  {it[:LONGEST]}" for it in failed[:MOST])]


def first_rows(blocks):
    """Returns the first rows of each block, as many of each as there is room for."""
    kept = sorted((at, number) for number, block in enumerate(blocks) for at in range(len(block)))[:MOST_OF_ALL]
    return [block[at] for number, block in enumerate(blocks) for at in range(len(block)) if (at, number) in kept]


def reasons(said, complained=""):
    """Returns rows that say what has failed and why, from what rt ci printed, and what it complained of."""
    more = [[it[:LONGEST]] for pattern in (ENDED, PROGRAM, MUTANT) for it in [*dict.fromkeys(pattern.findall(said))][:MOST]]
    return first_rows([*failed_proofs(said, complained), *failed_tests(said), *more])
