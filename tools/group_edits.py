"""The files of mutants, and the groups of them that one check tries together.

A mutant that the prover tries has its own file in must-fail/, whose name says in words what the mutant does. A check takes most of its
time before it comes to an edit, so tools/gate.py and tools/check_edits.py try groups: mutants of one source file first, then those of
its folder. Mutants of one function, or of one cycle of calls, are in different groups. One outside of bodies, or in several, is tried
alone.

The mutants that a test rejects are in a file for each source file, with their words in a comment line before each.
"""
import collections
import os
import re
import sys
import tempfile
import threading
from dataclasses import dataclass, field
from pathlib import Path

sys.dont_write_bytecode = True
import edits

# The most mutants of a group.
MOST = 36
# The words that can be the name of a file, which has an underscore for each space.
WORDS = re.compile(r"[A-Za-z0-9][A-Za-z0-9 .-]*")


@dataclass
class Edit:
    words: str
    text: str
    path: str
    functions: list

    def keys(self):
        """Returns what no other edit of its group may have: its function, and the cycle of that."""
        return {key for it in self.functions for key in ((it.module, it.name), it.cycle) if key}

    def can_be_grouped(self):
        return len(self.functions) == 1 and None not in self.functions

    def file_name(self):
        return re.sub(r"[^A-Za-z0-9.-]+", "_", self.words).strip("_") + ".edit"


@dataclass
class Group:
    edits: list = field(default_factory=list)

    def takes(self, others, most, folder):
        together = [*self.edits, *others]
        keys = [key for it in together for key in it.keys()]
        is_apart = len({*keys}) == len(keys)
        return len(together) <= most and is_apart and not edits.edited(text_of(together), folder)[1]


def text_of(together):
    return "".join(f"# {it.words}\n{it.text}" for it in together)


def read_edits(file, folder):
    """Returns the edits of a file, each with the words before it, or the file's name as words if there are none."""
    found, words, rows = [], "", []
    with open(file, encoding="utf-8") as it:
        given = it.read().splitlines()
    for row in [*given, "#"]:
        if row.startswith("#") and rows:
            text = "\n".join(rows) + "\n"
            path = next(it.removeprefix("file: ").strip() for it in rows if it.startswith("file: "))
            name = os.path.basename(file).removesuffix(".edit").replace("_", " ")
            found.append(Edit(words or name, text, path, edits.functions_of(text, folder)))
            words, rows = "", []
        if row.startswith("#"):
            words = f"{words} {row.removeprefix('#').strip()}".strip()
        elif row.strip():
            rows.append(row)
    return found


# ---- groups


def packed(groups, most, folder):
    """Returns these groups in as few as can be had by putting each into the first that takes it."""
    made = []
    for group in groups:
        taker = next((it for it in made if it.takes(group.edits, most, folder)), None)
        if taker:
            taker.edits += group.edits
        else:
            made.append(group)
    return made


def grouped(found, folder, most=MOST):
    """Returns the groups of a crate's edits: by source file, then by folder, then what is left, and alone those that can't be grouped."""
    groups = [Group([it]) for it in sorted(found, key=lambda it: (it.path, it.words)) if it.can_be_grouped()]
    for place in (lambda path: path, os.path.dirname, lambda path: ""):
        by_place = collections.defaultdict(list)
        for it in groups:
            by_place[place(it.edits[0].path)].append(it)
        groups = [it for near in by_place.values() for it in packed(near, most, folder)]
    return [*groups, *(Group([it]) for it in found if not it.can_be_grouped())]


class Groups:
    """Writes the groups of crates to files, which are removed when the program ends. If names of files are given, others are left out."""

    def __init__(self, names=()):
        self.names, self.room, self.written, self.writing = {*names}, tempfile.TemporaryDirectory(prefix="mutants-"), {}, threading.Lock()

    def files_of(self, crate, files):
        """Returns the files of a crate's groups. `files` are those of must-fail/: one that can't be read is returned as it is."""
        with self.writing:
            if crate.folder not in self.written:
                self.written[crate.folder] = self.write(crate, [it for it in files if not self.names or os.path.basename(it) in self.names])
            return self.written[crate.folder]

    def write(self, crate, files):
        unread = [it for it in files if edits.read(it, crate.folder)[1]]
        groups = grouped([edit for it in files if it not in unread for edit in read_edits(it, crate.folder)], crate.folder)
        folder, written = tempfile.mkdtemp(dir=self.room.name), []
        for number, group in enumerate(groups, 1):
            written.append(f"{folder}/{group.edits[0].file_name() if len(group.edits) == 1 else f'group_{number}.edit'}")
            Path(written[-1]).write_text(text_of(group.edits))
        return [*written, *unread]


# ---- files


def replace_files(folder, texts):
    """Writes the files of a folder's mutants, by their names, and removes its other ones. Files that don't change aren't written."""
    for file in folder.glob("*.edit"):
        if file.name not in texts:
            file.unlink()
    for name, text in texts.items():
        folder.mkdir(exist_ok=True)
        if not (folder / name).is_file() or (folder / name).read_text() != text:
            (folder / name).write_text(text)


def write_alone(found, folder):
    """Writes mutants to a folder with a file for each."""
    texts = {}
    for it in found:
        if not WORDS.fullmatch(it.words) or texts.setdefault(it.file_name(), it.text) != it.text:
            edits.stop(f"{folder}: {it.words!r} must be letters, digits, spaces, dots and hyphens, and those of one mutant")
    replace_files(folder, texts)


def write_by_source(found, folder):
    """Writes mutants to a folder with a file for each source file."""
    by_path = collections.defaultdict(list)
    for it in sorted(found, key=lambda it: it.words):
        if it not in by_path[it.path]:
            by_path[it.path].append(it)
    name_of = lambda path: path.removeprefix("src/").removesuffix(".rt").replace("/", "_") + ".edit"
    replace_files(folder, {name_of(path): text_of(its) for path, its in by_path.items()})
