"""The command line: jdoc COMMAND .., or python -m jsonb_paths COMMAND .."""

from __future__ import annotations

import argparse
import codecs
import contextlib
import json
import os
import re
import signal
import sys
from typing import Any, BinaryIO, Callable, Dict, Iterable, Iterator, List, NoReturn, Optional, Tuple

from . import __version__, _core
from .column import Column
from .documents import check, dumps, from_json, get_by_name, kind
from .errors import (
    InvalidJson, InvalidJsonb, InvalidJsonPath, InvalidJsonType, InvalidKeyPath, InvalidObject, JsonbError, exception_of,
)
from .paths import KeyPath, Path

EXAMPLES = """\
A FILE contains JSON lines, or JSON text in any layout, or with --hex a document in hexadecimal on each line. Without a FILE, or
with -, it is standard input. Each result is a line of JSON, or with --hex of hexadecimal.

examples:
  jdoc select '$.phones[*]?(@.type == "home").number' people.jsonl
  jdoc filter '$.age > $least' --argjson least 30 people.jsonl
  jdoc get -r '{address,city}' people.jsonl
  jdoc set '{address,zip}' '"01234"' people.jsonl
  jdoc keys --limit 10 people.jsonl
  jdoc sort people.jsonl

exit status, as that of jq:
  0  done; with -e: the last result is neither false nor null   3  not a path; filter, match: not a predicate
  1  with -e: the last result is false or null                  4  with -e: there is no result
  2  usage, or a file that can't be read or written             5  a row is an error: file, line and text are on standard error
"""
FALSY, USAGE, NO_PATH, NO_RESULT, WRONG_ROW = 1, 2, 3, 4, 5
BLOCK = 4 << 20
TEXT_SHOWN = 200
HELP = {
    "select": "each item that a JSON path selects",
    "filter": "each document for which a JSON path that is a predicate is true",
    "get": "the item at a key path such as {a,0}",
    "exists": "whether a JSON path selects an item, as each predicate does",
    "match": "the value of a JSON path that is a predicate: true, false, or null for unknown",
    "delete": "each document without the item at a key path",
    "set": "each document with a value at a key path of names; missing objects are created",
    "insert": "like set; an existing key is an error",
    "keys": "the keys of each object, as an array",
    "contains": "whether each document contains another, given as JSON",
    "key": "the sortable key, in hexadecimal",
    "sort": "the documents in the order of their sortable keys",
}
PATHS, KEY_PATHS, BOOLEANS = ("select", "filter", "exists", "match"), ("get", "delete", "set", "insert"), ("exists", "match", "contains")
PREDICATES = ("filter", "match")
WORDS = {None: b"null", False: b"false", True: b"true"}
FALSE_LINES = (b"false", b"null", dumps(False).hex().encode(), dumps(None).hex().encode())


class Stop(Exception):
    """The end of the run: the exit status, and what is written to standard error."""

    def __init__(self, status: int, said: str = ""):
        self.status, self.said = status, said


def parser() -> argparse.ArgumentParser:
    formatter = argparse.RawDescriptionHelpFormatter
    top = argparse.ArgumentParser("jdoc", description="Queries and edits of JSON documents.", epilog=EXAMPLES, formatter_class=formatter)
    top.add_argument("--version", action="version", version=__version__)
    commands = top.add_subparsers(dest="command", metavar="COMMAND", required=True)
    for name, text in HELP.items():
        command = commands.add_parser(name, help=text, description=text, epilog=EXAMPLES, formatter_class=formatter)
        add_words(command, name)
    return top


def count(text: str) -> int:
    number = int(text)
    if number < 0:
        raise argparse.ArgumentTypeError(f"{text} is negative")
    return number


def add_words(command: argparse.ArgumentParser, name: str) -> None:
    command.add_argument("-e", "--exit-status", action="store_true", help="set the exit status by the last result")
    command.add_argument("-r", "--raw-output", action="store_true", help="write strings without quotes")
    command.add_argument("--hex", action="store_true", help="documents in hexadecimal, in and out")
    command.add_argument("--limit", type=count, metavar="N", help="end after N results")
    if name in PATHS:
        command.add_argument("--strict", action="store_true", help="strict mode: a step that does not apply to an item is an error")
        command.add_argument("--path-limit", type=count, metavar="N", help="for an untrusted path: a row is an error if it may list or compare more items")
        command.add_argument("--arg", nargs=2, action="append", default=[], metavar=("NAME", "STRING"), help="a string for $NAME in the path")
        command.add_argument("--argjson", nargs=2, action="append", default=[], metavar=("NAME", "JSON"), help="a scalar for $NAME in the path")
        command.add_argument("path", metavar="PATH")
    if name in ("key", "sort"):
        command.add_argument("--wide", action="store_true", help="keys for items up to 65,535 deep")
    if name in KEY_PATHS:
        command.add_argument("path", metavar="KEYPATH")
    if name in ("set", "insert", "contains"):
        command.add_argument("other", metavar="JSON")
    command.add_argument("files", nargs="*", metavar="FILE")


def read_words(words: Optional[List[str]]) -> argparse.Namespace:
    """The arguments. Files may follow options that follow the path, which argparse alone does not accept."""
    top = parser()
    asked, after = top.parse_known_args(words)
    wrong = [it for it in after if it.startswith("-") and it != "-"]
    if wrong:
        top.error(f"unrecognized arguments: {' '.join(wrong)}")
    asked.files = [*asked.files, *after] or ["-"]
    return asked


def plain(text: str) -> str:
    """Returns the text of a row for a terminal: without control characters, and shortened."""
    shown = "".join(it if it.isprintable() else ascii(it)[1:-1] for it in text[:TEXT_SHOWN])
    return shown + ("..." if len(text) > TEXT_SHOWN else "")


def say(text: str) -> None:
    """Writes to standard error. If that is closed or full, only the status reports it."""
    try:
        if sys.stderr is not None:
            sys.stderr.write(text)
            sys.stderr.flush()
    except (OSError, ValueError):
        pass


# ARGUMENTS

_VARIABLE = re.compile(r'"(?:[^"\\]|\\.)*"|\$([A-Za-z_]\w*)')
_STEP = re.compile(r'\s*(?:"((?:[^"\\]|\\.)*)"|([^,]*?))\s*(?:,|$)')


def literals(asked: argparse.Namespace) -> Dict[str, str]:
    """The values of --arg and --argjson as literals of a path."""
    values: Dict[str, Any] = dict(asked.arg)
    for name, text in asked.argjson:
        try:
            values[name] = json.loads(text)
        except ValueError as fault:
            raise Stop(USAGE, f"--argjson {plain(name)}: {fault}") from None
        if isinstance(values[name], (list, dict, float)):
            raise Stop(USAGE, f"--argjson {plain(name)}: a string, an integer, a Boolean or null is expected")
    return {name: json.dumps(it) for name, it in values.items()}


def with_variables(asked: argparse.Namespace) -> str:
    """The path, with a literal in place of each $NAME outside of its strings."""
    known = literals(asked)

    def literal(found: "re.Match[str]") -> str:
        if not found[1]:
            return found[0]
        if found[1] not in known:
            raise Stop(NO_PATH, f"${found[1]} has no value: give --arg {found[1]} STRING")
        return known[found[1]]

    return _VARIABLE.sub(literal, asked.path)


def names_of(path: str) -> List[str]:
    """The steps of a key path that the library has parsed, all of which must be names."""
    inside, names, at = path.strip()[1:-1].strip(), [], 0
    while at < len(inside):
        found = _STEP.match(inside, at)
        assert found
        quoted, bare = found.groups()
        if "\\" in (quoted or bare or "") or (bare is not None and re.fullmatch(r"[+-]?\d+", bare)):
            raise Stop(NO_PATH, f"set and insert take a key path of names without escapes: {plain(path)}")
        names.append(bare if quoted is None else quoted)
        at = found.end()
    if not names:
        raise Stop(NO_PATH, "set and insert take a key path with a name")
    return names


def key_path_of(names: List[str]) -> str:
    """The key path of names without escapes."""
    return "{" + ",".join(it if re.fullmatch(r"[A-Za-z_]\w*", it, re.ASCII) else f'"{it}"' for it in names) + "}"


def document_of(text: str, in_hex: bool) -> bytes:
    if not in_hex:
        return from_json(text)
    try:
        document = bytes.fromhex(text)
    except ValueError as fault:
        raise InvalidJsonb(f"not hexadecimal: {fault}") from None
    check(document)
    return document


class Query:
    """The path, parsed once, and the other document."""

    def __init__(self, asked: argparse.Namespace):
        self.asked = asked
        try:
            if asked.command in PATHS:
                self.path = Path(with_variables(asked), strict=asked.strict, limit=asked.path_limit)
                if asked.command in PREDICATES and not self.path.is_predicate:
                    raise Stop(NO_PATH, f"{asked.command} takes a predicate, such as $.age > 40, not {plain(asked.path)}")
            if asked.command in KEY_PATHS:
                self.key_path = KeyPath(asked.path)
        except (InvalidJsonPath, InvalidKeyPath) as fault:
            raise Stop(NO_PATH, f"{type(fault).__name__}: {plain(str(fault))}") from None
        try:
            if "other" in asked:
                self.other = document_of(asked.other, asked.hex)
        except JsonbError as fault:
            raise Stop(USAGE, f"{plain(asked.other)}: {type(fault).__name__}: {plain(str(fault))}") from None
        if asked.command in ("set", "insert"):
            self.names = names_of(asked.path)

    def object_of(self, document: bytes, place: str = "") -> bytes:
        if kind(document) != "object":
            raise InvalidObject(f"{self.asked.command}: expected an object{place}, found {kind(document)}")
        return document

    def keys(self, document: bytes) -> bytes:
        return dumps([key for key, _ in _core.pairs(self.object_of(document))])

    def changed(self, document: bytes) -> bytes:
        """The document with the other one at the key path, built from the innermost object outwards."""
        objects = [self.object_of(document)]
        for depth, name in enumerate(self.names[:-1], 1):
            inner = get_by_name(objects[-1], name)
            objects.append(dumps({}) if inner is None else self.object_of(inner, f" at {key_path_of(self.names[:depth])}"))
        made = _core.object_insert_value(objects[-1], self.other, self.names[-1], update=self.asked.command == "set")
        for outer, name in zip(objects[-2::-1], self.names[-2::-1]):
            made = _core.object_insert_value(outer, made, name, update=True)
        return made


# ROWS

@contextlib.contextmanager
def progress(file: BinaryIO) -> "Iterator[Callable[[int], Any]]":
    """A progress bar on standard error, if that is a terminal, the file is long and tqdm is installed."""
    size = os.fstat(file.fileno()).st_size
    shown = sys.stderr is not None and sys.stderr.isatty() and (size >= BLOCK or not size)
    try:
        from tqdm import tqdm
    except ImportError:
        shown = False
    if not shown:
        yield lambda _: None
        return
    with tqdm(total=size or None, unit="B", unit_scale=True, leave=False) as bar:
        yield bar.update


Block = Tuple[Column, Callable[[int, Optional[int]], Tuple[int, bytes]], Dict[int, JsonbError]]


class Source:
    """One file, in blocks of rows: a column, a function that locates a row with an error, and the errors."""

    def __init__(self, name: str, in_hex: bool):
        self.name, self.in_hex = name, in_hex

    def blocks(self) -> Iterator[Block]:
        try:
            if self.name == "-" and sys.stdin is None:
                raise Stop(USAGE, "standard input is closed")
            with open(0 if self.name == "-" else self.name, "rb", buffering=0, closefd=self.name != "-") as file:
                yield from self.read(file)
        except OSError as fault:
            raise Stop(USAGE, f"{plain(self.name)}: {fault.strerror}") from None

    def read(self, file: BinaryIO) -> Iterator[Block]:
        line = 1
        read: Callable[..., Any] = _core.lines_in
        if self.in_hex:
            read = self.hex_lines
        with progress(file) as passed:
            blocks = self.whole_lines(file)
            for text in blocks:
                if line == 1:
                    text = text.removeprefix(codecs.BOM_UTF8)
                if line == 1 and not self.in_hex and self.is_of_any_layout(text):
                    yield self.block(b"".join((text, *blocks)), line, _core.texts_in)
                    return
                yield self.block(text, line, read)
                passed(len(text))
                line += text.count(b"\n")

    @staticmethod
    def whole_lines(file: BinaryIO) -> Iterator[bytes]:
        kept: List[bytes] = []
        for block in iter(lambda: file.read(BLOCK), b""):
            end = block.rfind(b"\n") + 1
            if end:
                yield b"".join((*kept, block[:end]))
                kept = []
            kept.append(block[end:])
        if any(kept):
            yield b"".join(kept)

    @staticmethod
    def is_of_any_layout(text: bytes) -> bool:
        """Whether the first line alone is not JSON."""
        try:
            from_json(text.lstrip().split(b"\n", 1)[0] or b"null")
        except InvalidJson:
            return True
        except JsonbError:
            pass
        return False

    @staticmethod
    def hex_lines(text: bytes) -> "Tuple[memoryview, memoryview, memoryview, List[Tuple[int, int, int, str]]]":
        rows, spans, wrong, at = [], [], [], 0
        for line in text.split(b"\n"):
            if line.strip():
                try:
                    rows.append(document_of(line.decode("ascii", "replace"), True))
                except JsonbError as fault:
                    wrong.append((len(rows), fault.status, 0, fault.what))
                    rows.append(b"")
                spans += [at, len(line)]
            at += len(line) + 1
        column = Column(rows)
        return column.data, column.offsets, memoryview(b"".join(it.to_bytes(8, sys.byteorder) for it in spans)), wrong

    def block(self, text: bytes, line: int, read: Callable[..., Any]) -> Block:
        data, offsets, spans, wrong = read(text)
        places = spans.cast("Q")

        def place(row: int, at: Optional[int]) -> Tuple[int, bytes]:
            start, length = places[2 * row], places[2 * row + 1]
            return line + text.count(b"\n", 0, start + (at or 0)), text[start : start + length]

        faults = {row: exception_of(status, what, None, None if self.in_hex else at) for row, status, at, what in wrong}
        return Column._without(data, offsets, faults), place, faults


class Run:
    """One run of a command, and its state."""

    def __init__(self, asked: argparse.Namespace, out: BinaryIO):
        self.asked, self.out, self.query = asked, out, Query(asked)
        self.is_wrong = False
        self.last: Optional[bytes] = None
        self.left: int = -1 if asked.limit is None else asked.limit
        self.sorted: List[Tuple[bytes, bytes]] = []

    def run(self) -> int:
        for name in self.asked.files:
            for column, place, faults in Source(name, self.asked.hex).blocks():
                if not self.left:
                    break
                self.results(column, faults)
                for row in sorted(faults):
                    self.report(name, *place(row, faults[row].at), faults[row])
        if self.asked.command == "sort":
            self.documents(Column(document for _, document in sorted(self.sorted, key=lambda it: it[0])))
        self.out.flush()
        if self.is_wrong:
            return WRONG_ROW
        if not self.asked.exit_status:
            return 0
        return NO_RESULT if self.last is None else FALSY if self.last in FALSE_LINES else 0

    def report(self, name: str, line: int, text: bytes, fault: JsonbError) -> None:
        self.is_wrong = True
        what = type(fault)(fault.what, None, fault.at)
        say(f"{plain(name)}:{line}: {type(fault).__name__}: {plain(str(what))}\n    {plain(text[: 4 * TEXT_SHOWN].decode('utf-8', 'replace').strip())}\n")

    def results(self, column: Column, faults: Dict[int, JsonbError]) -> None:
        """Writes the results of some rows, and adds their errors to `faults`."""
        command, query = self.asked.command, self.query
        if command == "select":
            self.documents(column.select_array(query.path, errors=faults), elements=True)
        elif command == "filter":
            self.documents(column.filter(column.match(query.path, errors=faults)))
        elif command == "get":
            self.documents(column.get(query.key_path, errors=faults))
        elif command == "delete":
            self.documents(column.delete(query.key_path, errors=faults))
        elif command in BOOLEANS:
            self.booleans(column, faults)
        elif command in ("key", "sort"):
            self.keys(column, faults)
        else:
            self.each(column, query.keys if command == "keys" else query.changed, faults)

    def booleans(self, column: Column, faults: Dict[int, JsonbError]) -> None:
        command, query = self.asked.command, self.query
        if command == "contains":
            found = column.contains(query.other, errors=faults)
        else:
            found = (column.exists if command == "exists" else column.match)(query.path, errors=faults)
        self.lines(WORDS[it] for row, it in enumerate(found) if row not in faults)

    def keys(self, column: Column, faults: Dict[int, JsonbError]) -> None:
        keys = column.sort_keys(wide=self.asked.wide, errors=faults)
        if self.asked.command == "sort":
            self.sorted += [(key, document) for key, document in zip(keys, column) if key is not None and document is not None]
        else:
            self.lines((it.hex() if self.asked.hex else f'"{it.hex()}"').encode() for it in keys if it is not None)

    def each(self, column: Column, call: Callable[[bytes], bytes], faults: Dict[int, JsonbError]) -> None:
        """Writes the results of a call on single documents."""
        made = []
        for row, document in enumerate(column):
            if document is not None:
                try:
                    made.append(call(document))
                except JsonbError as fault:
                    faults[row] = fault
        self.documents(Column(made))

    def documents(self, column: Column, elements: bool = False) -> None:
        """Writes the rows that are not null, or the elements of these arrays."""
        if self.asked.hex:
            rows: Iterable[bytes] = (it for it in column if it is not None)
            self.lines(it.hex().encode() for row in rows for it in (_core.elements(row) if elements else (row,)))
            return
        known = column._known()
        statuses = None if known is None else known.translate(bytes([1, 0]) + bytes(254))
        how = (1 if elements else 0) | (2 if self.asked.raw_output else 0)
        try:
            self.write(*_core.lines_out(column.data, column.offsets, statuses, how))
        except InvalidJsonType:
            raise Stop(WRONG_ROW, "an extension value, such as a date, has no JSON text: use --hex") from None

    def lines(self, lines: Iterable[bytes]) -> None:
        found = list(lines)
        self.write(b"\n".join([*found, b""]), len(found))

    def write(self, text: bytes, lines: int) -> None:
        if 0 <= self.left < lines:
            text, lines = b"".join(it + b"\n" for it in text.split(b"\n", self.left)[: self.left]), self.left
        self.left -= lines if self.left >= 0 else 0
        if text:
            self.last = text[text.rfind(b"\n", 0, -1) + 1 : -1]
            self.out.write(text)


def main(words: Optional[List[str]] = None) -> int:
    """Runs a command, and returns its exit status."""
    asked = read_words(words)
    if sys.stdout is None:
        say("standard output is closed\n")
        return USAGE
    try:
        return Run(asked, sys.stdout.buffer).run()
    except Stop as stop:
        say(f"{stop.said}\n" if stop.said else "")
        return stop.status
    except BrokenPipeError:
        os.dup2(os.open(os.devnull, os.O_WRONLY), 1)
        return 0
    except OSError as fault:
        say(f"standard output: {fault.strerror}\n")
        os.dup2(os.open(os.devnull, os.O_WRONLY), 1)
        return USAGE
    except MemoryError:
        say("an allocation failed\n")
        return WRONG_ROW


def run() -> NoReturn:
    """The program. An interrupt ends it as it ends other programs."""
    signal.signal(signal.SIGINT, signal.SIG_DFL)
    sys.exit(main())


if __name__ == "__main__":
    run()
