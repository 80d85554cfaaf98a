#!/usr/bin/env python3
"""Compares the C library and the program with a model that shares no code with them, on random documents and paths.

    fuzz.py [--seconds N] [--seed N] [--library FILE] [--tool FILE]
    fuzz.py --corpus FOLDER [--seed N]    writes inputs for bindings/c/tests/fuzz.c, which runs the library without a model

The seed is the day's date if none is given, so that each day tries other cases. A difference prints the call, its arguments and both
results; the seed gives it again. The last line is 'N passed, M failed'.
"""

import argparse
import datetime
import random
import subprocess
import sys
import time
from pathlib import Path

sys.dont_write_bytecode = True
TOP = Path(__file__).resolve().parent.parent
sys.path.insert(0, str(TOP / "tools/fuzz"))
import meaning
from bound import MOST, Bound
from grammar import JsonPath, KeyPath
from library import Library, c_bool, c_int32, c_int64, c_size_t, c_uint8, c_uint64, column_of, names_of
from meaning import Fails, Path as Meaning
from random_cases import Cases
from trees import Invalid, Number, decode, encode

SHOWN = 20


def outcome(call):
    """Returns the status and the value that a function of the model stands for: None as a value is the status NONE."""
    try:
        value = call()
    except Fails as error:
        return str(error), None
    return ("NONE", None) if value is None else ("OK", value)


def fail_if(condition, error):
    if condition:
        meaning.fails(error)


class Comparison:
    """One document, another one and one text of each path language, on which each call is compared."""

    def __init__(self, library, cases, report):
        self.library, self.cases, self.report = library, cases, report
        self.tree, self.other = cases.tree(), cases.tree()
        self.document, first = cases.document(self.tree)
        self.other_document, second = cases.document(self.other)
        self.is_canonical = first and second

    def compare(self, name, arguments, expected, got):
        self.report(name, [self.document, *arguments], expected, got)

    def makes(self, name, arguments, call, given=None):
        """Compares a call that makes a document with a function of the model that makes a tree."""
        status, tree = outcome(call)
        got = self.library.bytes_of(name, self.document, *(arguments if given is None else given))
        if status == got[0] == "OK" and not self.is_canonical:
            # Only the tree of the result is stated.
            self.compare(name, arguments, (status, meaning.equality_key(tree[0])), (got[0], equality_key_of(got[1])))
        else:
            self.compare(name, arguments, (status, tree and encode(tree[0])), got)

    def items(self, arguments, call):
        """Compares the items of a prepared path, one at a time, with a list of trees."""
        status, trees = outcome(call)
        found, documents = self.library.items(self.document, *arguments)
        wanted = trees and [meaning.equality_key(it) for it in trees]
        self.compare("path_items", arguments, (status, wanted), (found, documents and [equality_key_of(it) for it in documents]))

    def truth(self, name, arguments, call, given=None):
        """Compares a call that returns a small number: a Boolean, 2 for unknown, or a type."""
        status, value = outcome(lambda: [call()])
        number = None if value is None else 2 if value[0] is meaning.UNKNOWN else int(value[0])
        self.compare(name, arguments, (status, number), self.library.truth_of(name, self.document, *(given or arguments)))

    def value(self, kind, name, call, arguments=()):
        self.compare(name, arguments, outcome(call), self.library.value_of(kind, name, self.document, *arguments))

    def bytes(self, name, arguments, call):
        self.compare(name, arguments, outcome(call), self.library.bytes_of(name, self.document, *arguments))

    def error_position(self, name, path):
        position = path.error_position()
        expected = ("NONE", None) if position is None else ("OK", position)
        self.report(name, [path.text], expected, self.library.value_of(c_size_t, name, path.text))

    def all(self):
        self.events()
        self.paths()
        self.key_paths()
        self.scalars()
        self.edits()
        self.names()
        self.comparisons()

    # ---- groups of calls

    def events(self):
        events = [*self.events_of(self.tree)]
        self.compare("builder", [], ("OK", encode(self.tree)), self.library.built(events))
        if all(name != "document" for name, *_ in events):
            for keep_last in (False, True):
                self.compare("from_events", [keep_last], ("OK", encode(self.tree)), self.library.listed(events, keep_last))

    def events_of(self, tree):
        """Yields the events of a tree, with the members of objects in any order."""
        if isinstance(tree, list):
            yield ("begin_array",)
            for it in tree:
                yield from self.events_of(it)
            yield ("end",)
        elif isinstance(tree, dict):
            yield ("begin_object",)
            for key in self.cases.random.sample([*tree], len(tree)):
                yield "key", key.encode()
                yield from self.events_of(tree[key])
            yield ("end",)
        else:
            yield scalar_event(tree)

    def paths(self):
        text = self.cases.json_path()
        steps = JsonPath(text).read()
        self.error_position("path_error_position", JsonPath(text))

        def path(strict):
            fail_if(steps is None, "INVALID_JSON_PATH")
            return Meaning(self.tree, strict)

        for strict in (False, True):
            given = [text, c_bool(strict)]
            items = lambda: path(strict).items(steps)
            self.makes("select_array", given, lambda: [items()])
            self.items(given, items)
            self.makes("select_first", given, lambda: items()[:1] or None)
            self.makes("select_value", given, lambda: single_or_array(items()))
            self.truth("exists", given, lambda: bool(items()))
            self.truth("match", given, lambda: path(strict).match(steps))
        self.limits(text, steps)

    def limits(self, text, steps):
        """Compares the bound of a path, and a call with a limit at it, below it or above it."""
        bound = 0 if steps is None else Bound(self.document, self.tree).of(steps)
        limit = min(MOST, max(0, bound + self.cases.random.randrange(-1, 2)))

        def known():
            fail_if(steps is None, "INVALID_JSON_PATH")
            return bound

        def exists():
            fail_if(known() > limit, "LIMIT_EXCEEDED")
            return int(bool(Meaning(self.tree, False).items(steps)))

        found, decided = self.library.within(self.document, text, limit)
        self.compare("path_most_items", [text], outcome(known), found)
        self.compare("path_exists", [text, limit], outcome(exists), decided)

    def key_paths(self):
        text = self.cases.key_path()
        keys = KeyPath(text).read()
        self.error_position("keypath_error_position", KeyPath(text))

        def places():
            fail_if(keys is None, "INVALID_KEY_PATH")
            return meaning.located(keys, self.tree)

        def found():
            at = places()
            return None if at is None else [meaning.at_places(at, self.tree)]

        def deleted():
            at = places()
            fail_if(meaning.is_plain(self.tree), "INVALID_JSON_TYPE")
            return [meaning.without(at, self.tree) if at else self.tree]

        self.makes("get_by_keypath", [text], found)
        self.makes("delete_by_keypath", [text], deleted)

    def scalars(self):
        tree = self.tree
        self.compare("check", [], "OK", self.library.check(self.document))
        self.value(c_uint64, "as_u64", lambda: meaning.whole(tree, 0, 2**64 - 1))
        self.value(c_int64, "as_i64", lambda: meaning.whole(tree, -(2**63), 2**63 - 1))
        self.value(c_int64, "to_i64", lambda: meaning.to_integer(tree, -(2**63), 2**63 - 1))
        self.value(c_uint64, "to_u64", lambda: meaning.to_integer(tree, 0, 2**64 - 1))
        self.truth("to_bool", [], lambda: meaning.to_bool(tree))
        self.truth("type", [], lambda: meaning.type_of(tree))
        self.compare("as_bool", [], outcome(lambda: int(tree) if isinstance(tree, bool) else None), self.library.truth_of("as_bool", self.document))
        self.bytes("as_str", [], lambda: tree.encode() if isinstance(tree, str) else None)
        self.bytes("to_str", [], lambda: meaning.to_str(tree).encode())
        self.bytes("sort_key", [c_bool(False)], lambda: meaning.sort_key(tree, 1))
        self.bytes("sort_key", [c_bool(True)], lambda: meaning.sort_key(tree, 2))
        self.bytes("equality_key", [], lambda: meaning.equality_key(tree))
        self.value(c_size_t, "len", lambda: len(tree) if isinstance(tree, (list, dict)) else None)

    def edits(self):
        tree, value = self.tree, self.other
        at = self.cases.random.choice([0, 1, 2, 3, -1, -2, -5, 2**31 - 1, -(2**31)])
        name = self.cases.random.choice(self.cases.names() or ["a"])
        self.makes("strip_nulls", [], lambda: [meaning.strip_nulls(tree)])
        self.makes("array_distinct", [], lambda: [meaning.distinct(tree)])
        self.makes("array_insert", [self.other_document, c_int32(at)], lambda: [meaning.inserted(tree, at, value)])
        self.makes("delete_by_index", [c_int32(at)], lambda: [self.without_element(at)])
        self.makes("delete_by_name", [name.encode()], lambda: [self.without_name(name)])
        index = abs(at)
        self.makes("get_by_index", [c_size_t(index)], lambda: [tree[index]] if isinstance(tree, list) and index < len(tree) else None)
        for flag in (False, True):
            self.makes("get_by_name", [name.encode(), c_bool(flag)], lambda: meaning.by_name(tree, name, flag) or None)
            self.makes("object_insert", [self.other_document, name.encode(), c_bool(flag)], lambda: [self.with_pair(name, flag)])

    def without_element(self, at):
        fail_if(not isinstance(self.tree, list), "INVALID_JSON_TYPE")
        place = at if at >= 0 else len(self.tree) + at
        return [it for n, it in enumerate(self.tree) if n != place]

    def without_name(self, name):
        fail_if(not isinstance(self.tree, (list, dict)), "INVALID_JSON_TYPE")
        if isinstance(self.tree, list):
            return [it for it in self.tree if it != name]
        return {key: it for key, it in self.tree.items() if key != name}

    def with_pair(self, name, update):
        fail_if(not isinstance(self.tree, dict), "INVALID_OBJECT")
        fail_if(name in self.tree and not update, "OBJECT_DUPLICATE_KEY")
        return dict(sorted({**self.tree, name: self.other}.items(), key=lambda pair: pair[0].encode()))

    def names(self):
        names = self.cases.names()
        given = names_of(names)
        self.truth("exists_all_keys", [names], lambda: all(meaning.has_key(self.tree, it) for it in names), given)
        self.truth("exists_any_keys", [names], lambda: any(meaning.has_key(self.tree, it) for it in names), given)
        for call, is_kept in (("object_pick", True), ("object_delete", False)):
            self.makes(call, [names], lambda: [self.picked(names, is_kept)], given)

    def picked(self, names, is_kept):
        fail_if(not isinstance(self.tree, dict), "INVALID_OBJECT")
        return {key: it for key, it in self.tree.items() if (key in names) is is_kept}

    def comparisons(self):
        tree, other = self.tree, self.other
        pick = self.cases.random.random()
        if pick < 0.3:
            self.other_document, other = self.document, tree
        elif pick < 0.6:
            other = self.cases.changed(tree)
            self.other_document = encode(other)
        given = [self.other_document]
        self.value(c_int32, "compare", lambda: meaning.order(tree, other), given)
        self.composite_key([([tree], self.document), ([other], self.other_document), ([], b"")])
        self.truth("contains", given, lambda: meaning.contains(tree, other))
        self.truth("array_overlap", given, lambda: bool(meaning.split(tree, other)[0]))
        self.makes("array_intersection", given, lambda: [meaning.split(tree, other)[0]])
        self.makes("array_except", given, lambda: [meaning.split(tree, other)[1]])
        self.makes("concat", given, lambda: [self.joined(other)])

    def composite_key(self, known):
        """Compares the key of some columns, each with its value and its document."""
        columns = [self.cases.random.choice(known) for _ in range(self.cases.random.randrange(4))]
        given = column_of([document for _, document in columns])
        for wide in (False, True):
            expected = outcome(lambda: meaning.composite_key([value for value, _ in columns], 1 + wide))
            self.compare("composite_key", [*columns, wide], expected, self.library.bytes_of("composite_key", *given, c_bool(wide)))

    def joined(self, other):
        if isinstance(self.tree, dict) and isinstance(other, dict):
            return dict(sorted({**self.tree, **other}.items(), key=lambda pair: pair[0].encode()))
        return meaning.listed(self.tree) + meaning.listed(other)


def scalar_event(tree):
    if tree is None:
        return ("null",)
    if isinstance(tree, bool):
        return "bool", c_bool(tree)
    if isinstance(tree, str):
        return "str", tree.encode()
    if isinstance(tree, Number) and tree.variant in ("i64", "u64"):
        return tree.variant, (c_int64 if tree.variant == "i64" else c_uint64)(tree.coefficient)
    if isinstance(tree, Number) and (tree.variant == "d64") == (-(2**63) <= tree.coefficient < 2**63):
        return "decimal", c_int64(tree.coefficient >> 64), c_uint64(tree.coefficient & (2**64 - 1)), c_uint8(tree.scale)
    return "document", encode(tree)


def single_or_array(items):
    """Returns a list of the one item or of the array of several, or None."""
    return [items[0] if len(items) == 1 else items] if items else None


def equality_key_of(document):
    return meaning.equality_key(decode(document))


def damaged_case(library, cases, report):
    """Compares `check` on damaged bytes, on which each other call has to return."""
    document = cases.damaged(encode(cases.tree()))
    try:
        decode(document)
        expected = "OK"
    except Invalid as error:
        expected = "UNSUPPORTED_NUMBER" if error.unsupported else "INVALID_JSONB"
    report("check", [document], expected, library.check(document))
    if expected != "OK":
        for name in ("strip_nulls", "array_distinct", "equality_key", "to_str"):
            library.bytes_of(name, document)
        library.bytes_of("select_array", document, cases.json_path(), c_bool(False))
        library.bytes_of("delete_by_keypath", document, cases.key_path())
        library.truth_of("contains", document, document)
        library.value_of(c_int32, "compare", document, document)
        finding = ("find_str",), ("find_by_index", c_size_t(0)), ("find_by_keypath", cases.key_path()), ("find_first", cases.json_path(), c_bool(False))
        for name, *arguments in finding:
            report(name, [document, *arguments], True, library.is_within(name, document, *arguments))


# ---- the program

COMMANDS = ("get", "leaves", "select", "match", "key")


def leaves(tree, keys=()):
    """Yields the key path and the tree of each leaf below a tree."""
    children = enumerate(tree) if isinstance(tree, list) else tree.items() if isinstance(tree, dict) else ()
    for key, child in children:
        if isinstance(child, (list, dict)) and child:
            yield from leaves(child, (*keys, key))
        else:
            yield (*keys, key), child


def printed_key(key):
    if isinstance(key, int):
        return str(key)
    if key.isascii() and key.isidentifier():
        return key
    escaped = key.replace("\\", "\\\\").replace('"', '\\"')
    return f'"{escaped}"'


def error_text(status):
    if status == "PATH_FAILED":
        return "InvalidJsonPath"
    words = "".join(it.capitalize() for it in status.split("_"))
    return f"Arithmetic({words})" if status in ("OVERFLOW", "ZERO_DIVISOR", "INEXACT", "DECIMAL_OPERAND") else words


def lines_of(command, text, tree):
    """Returns the lines that the program prints, and its exit status."""
    documents = lambda found: [encode(it).hex() for it in found]
    read = {"get": KeyPath, "select": JsonPath, "match": JsonPath}.get(command)
    path = read(text).read() if read else ()
    try:
        fail_if(path is None, "INVALID_KEY_PATH" if command == "get" else "INVALID_JSON_PATH")
        if command == "get":
            places = meaning.located(path, tree)
            lines = documents([] if places is None else [meaning.at_places(places, tree)])
        elif command == "leaves":
            lines = [f"{encode(it).hex()} {{{','.join(map(printed_key, keys))}}}" for keys, it in leaves(tree)]
        elif command == "select":
            lines = documents(Meaning(tree, False).items(path))
        elif command == "match":
            lines = [{True: "true", False: "false", None: "unknown"}[Meaning(tree, False).match(path)]]
        else:
            lines = [meaning.sort_key(tree, 1).hex()]
    except Fails as error:
        return [f"refused: {error_text(str(error))}"], 1
    return lines or ["none"], 0


def problem_of(command, text, lines, status):
    """Returns what the program prints to standard error, after its name."""
    if status == 3:
        return "the arguments cannot be read: one is not UTF-8"
    at = KeyPath(text).error_position() if command == "get" else JsonPath(text).error_position()
    if lines[0] in ("refused: InvalidKeyPath", "refused: InvalidJsonPath") and at is not None:
        return f"not a {'key' if command == 'get' else 'JSON'} path: error at byte {at}"
    name = lines[0].removeprefix("refused: ").split("(")[0]
    return {
        "InvalidJsonPath": "the JSON path cannot be evaluated on this document",
        "Arithmetic": "arithmetic of the JSON path fails on this document",
        "TooDeep": "an item is nested too deeply for a sortable key",
    }[name]


def is_utf8(word):
    """Returns whether the program can read an argument: it takes UTF-8 alone, otherwise it ends with status 3."""
    try:
        return isinstance(word, str) or word.decode() is not None
    except UnicodeDecodeError:
        return False


def program_case(tool, cases, report):
    command = cases.random.choice(COMMANDS)
    tree = cases.tree()
    text = cases.key_path() if command == "get" else cases.json_path()
    if b"\0" in text:
        return
    words = [command, *([text] if command in ("get", "select", "match") else []), encode(tree).hex()]
    made = subprocess.run([tool, *words], capture_output=True, check=False)
    lines, status = lines_of(command, text, tree) if all(map(is_utf8, words)) else ([], 3)
    report(f"jsonb_tool {command}", words[1:], (status, lines), (made.returncode, made.stdout.decode().splitlines()))
    problem = f"jsonb_tool: {problem_of(command, text, lines, status)}\n" if status else ""
    report(f"jsonb_tool {command}, standard error", words[1:], problem, made.stderr.decode())


# ---- inputs for bindings/c/tests/fuzz.c

INPUTS = 4000


def fuzz_input(number, cases):
    """Returns an input of that program, which says what the bytes are."""
    random = cases.random
    documents = [cases.document(cases.tree())[0] for _ in range(2)]
    first = cases.damaged(documents[0]) if random.random() < 0.2 else documents[0]
    texts = [cases.json_path(), cases.key_path(), *(it.encode() for it in cases.names())]
    second, third = random.choice([documents[1], *texts]), random.choice(texts)
    whole = random.choice([-1, 0, 1, 2**40]).to_bytes(8, "little", signed=True)
    head = bytes([number % 256, random.randrange(8), random.choice([0, 2, 255])]) + whole
    return head + len(second).to_bytes(2, "little") + len(third).to_bytes(2, "little") + first + second + third


def write_corpus(folder, cases):
    folder.mkdir(parents=True, exist_ok=True)
    for number in range(INPUTS):
        (folder / f"{number:04}").write_bytes(fuzz_input(number, cases))


# ---- running


class Report:
    def __init__(self):
        self.passed = self.failed = 0

    def __call__(self, name, arguments, expected, got):
        if expected == got:
            self.passed += 1
            return
        self.failed += 1
        if self.failed <= SHOWN:
            shown = [it.hex() if n == 0 and isinstance(it, bytes) else getattr(it, "value", it) for n, it in enumerate(arguments)]
            print(f"{name} {shown}\n  model:   {readable(expected)}\n  library: {readable(got)}", flush=True)


def readable(outcome):
    return [it.hex() if isinstance(it, bytes) else it for it in outcome] if isinstance(outcome, tuple) else outcome


def words():
    today = int(datetime.date.today().strftime("%Y%m%d"))
    parser = argparse.ArgumentParser(description=__doc__, formatter_class=argparse.RawDescriptionHelpFormatter)
    parser.add_argument("--seconds", type=float, default=60)
    parser.add_argument("--seed", type=int, default=today)
    parser.add_argument("--library", type=Path, help="default: bindings/c/out/libjdoc.so, made first")
    parser.add_argument("--header", type=Path, default=TOP / "bindings/c/jdoc.h")
    parser.add_argument("--tool", type=Path, default=TOP / "crates/jsonb_tool/out/jsonb_tool")
    parser.add_argument("--corpus", type=Path)
    return parser.parse_args()


def made_library():
    subprocess.run(["make", "-s", "-C", TOP / "bindings/c"], check=True)
    return TOP / "bindings/c/out/libjdoc.so"


def main():
    given, report = words(), Report()
    cases = Cases(random.Random(given.seed))
    if given.corpus:
        return write_corpus(given.corpus, cases)
    library = Library(given.library or made_library(), given.header)
    print(f"fuzz: seed {given.seed}", flush=True)
    has_tool = given.tool.is_file()
    if not has_tool:
        print(f"skipped: fuzz: there is no {given.tool}")
    end, number = time.monotonic() + given.seconds, 0
    while time.monotonic() < end:
        Comparison(library, cases, report).all()
        damaged_case(library, cases, report)
        if number % 50 == 0 and has_tool:
            program_case(given.tool, cases, report)
        number += 1
    print(f"fuzz: {number} documents")
    print(f"{report.passed} passed, {report.failed} failed")
    return 1 if report.failed else 0


if __name__ == "__main__":
    sys.exit(main())
