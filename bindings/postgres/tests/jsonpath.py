"""Runs PostgreSQL's own tests of JSON paths with jsonb and with jdoc, and counts how their results compare.

  jsonpath.py jsonb_jsonpath.sql [-v]     src/test/regress/sql of the server's source; -v also prints what differs

PGHOST and PGUSER name a server; `test.sh LIB OUT python3 $PWD/tests/jsonpath.py FILE` starts one. The exit status is 0 if the counts
are COUNTS, those of PostgreSQL 15.18. docs/PATHS.md, docs/DIFFERENCES.md and docs/SQL.md have the reasons for the differences.
"""

import collections
import re
import subprocess
import sys

COUNTS = {
    "same result": 155,
    "both fail": 18,
    "both fail, jdoc because it is not a path": 62,
    "not a path for jdoc": 167,
    "different results": 18,
    "only jsonb fails": 10,
    "only jdoc fails": 3,
}
NOT_A_PATH = "for type jdocpath", "no variables", "does not exist"


def statements(file):
    with open(file, encoding="utf-8") as text:
        parts = re.split(r";[ \t]*\n", re.sub(r"^--.*$", "", text.read(), flags=re.M))
    return [it.strip() for it in parts if re.search("select", it, re.I)]


def for_jdoc(statement):
    return re.sub(r"\bjsonb(?=_path|\b(?!_))", "jdoc", statement).replace("jsonpath", "jdocpath")


def run(asked):
    """What psql prints for each statement."""
    script = "CREATE EXTENSION IF NOT EXISTS jdoc;\n\\set VERBOSITY terse\n" + "".join(f"\\echo @@{n}\n{it};\n" for n, it in enumerate(asked))
    said = subprocess.run(["psql", "-XAtq", "-f", "-"], input=script.encode(), stdout=subprocess.PIPE, stderr=subprocess.STDOUT, check=True)
    parts = re.split(r"^@@\d+\n", said.stdout.decode(), flags=re.M)[1:]
    return [re.sub(r"^psql:<stdin>:\d+: ", "", it, flags=re.M).strip() for it in parts]


def outcome(theirs, ours):
    they_fail, we_fail = theirs.startswith("ERROR"), ours.startswith("ERROR")
    is_path = not any(it in ours for it in NOT_A_PATH)
    if theirs == ours:
        return "same result"
    if they_fail and we_fail:
        return "both fail" if is_path or "syntax error" in theirs or "for type jsonpath" in theirs else "both fail, jdoc because it is not a path"
    if we_fail:
        return "only jdoc fails" if is_path else "not a path for jdoc"
    return "only jsonb fails" if they_fail else "different results"


def main():
    asked = statements(sys.argv[1])
    found = collections.defaultdict(list)
    for it, theirs, ours in zip(asked, run(asked), run(list(map(for_jdoc, asked)))):
        found[outcome(theirs, ours)].append((it, theirs, ours))
    for name in COUNTS:
        print(f"{len(found[name]):4} {name}")
        if "-v" in sys.argv and name in ("different results", "only jsonb fails", "only jdoc fails"):
            for it, theirs, ours in found[name]:
                print("  " + " ".join(it.split()), *(f"    {who}: " + " | ".join(what.split("\n")) for who, what in (("jsonb", theirs), ("jdoc", ours))), sep="\n")
    return {name: len(found[name]) for name in COUNTS} != COUNTS


if __name__ == "__main__":
    sys.exit(main())
