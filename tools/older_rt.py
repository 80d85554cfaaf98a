"""What rt of an older kit lacks of what tools/kit.py uses.

A later rt keeps what passed on the machine, tries each edit file as a task of its own, and rejects one that changes nothing. An older one,
such as that of rattle-kit-13b, keeps nothing, tries a crate's edits in turn, and judges one by a Boolean. With this module the gate runs
over the older one too, and every run proves and tries all.
"""
import contextlib
import os
import shutil
import sys
import tempfile
from pathlib import Path

# The kinds of tasks that rt ci of an older kit does.
KINDS = ("proof", "tests", "edits")
# What a later rt has that no older one needs.
UNNEEDED = ("add_edits",)


class Kept:
    """What a later rt keeps of earlier runs: nothing here."""

    def key(self, crate):
        return ""

    def of_edit(self, edit, sum):
        return ""


def link_or_copy(file, to):
    try:
        os.link(file, to)
    except OSError:
        shutil.copy2(file, to)


def linked(folder, to):
    """Copies the contents of a folder of kept work to another folder, by links."""
    shutil.copytree(folder, to, copy_function=link_or_copy, dirs_exist_ok=True)


def complete(rt):
    """Adds to the module rt of an older kit what it lacks of a later one, and returns whether it is of an older kit."""
    is_older = not hasattr(rt, "Kept")
    if is_older:
        OlderRt(rt).complete()
    return is_older


class OlderRt:
    """An older rt, with what a later one has."""

    def __init__(self, rt):
        self.rt, self.ci_by_rt, self.must_fail_by_rt, self.edited_by_rt = rt, rt.ci, rt.must_fail, rt.edited
        # The folder of the work that a crate's edits begin with, by its name, if it is not that of its proof in out/.
        self.seeds = {}

    def complete(self):
        rt = self.rt
        rt.REFUSED, rt.MISSED, rt.UNSURE = "refused", "missed", "unsure"
        rt.Kept, rt.SEEDS, rt.linked, rt.ending = Kept, [], linked, contextlib.nullcontext
        rt.must_fail, rt.edited, rt.seeded, rt.share_work = self.must_fail, self.edited, self.seeded, self.share_work
        rt.ci, rt.edits_alone = self.ci, self.edits_alone

    def edited(self, edit, folder):
        """Returns what rt reads in an edit, and why it can't be applied, if it can't or changes nothing."""
        texts, why = self.edited_by_rt(edit, folder)
        if texts and all(Path(folder, path).read_text() == text for path, text in texts.items()):
            return None, "it changes nothing"
        return texts, why

    def share_work(self, is_alone):
        """Does nothing: an older rt shares no work between clones."""

    def must_fail(self, crate, edit, flags, kept=None):
        is_refused, text = self.must_fail_by_rt(crate, edit, flags, kept)
        return self.rt.REFUSED if is_refused else self.rt.MISSED, text

    def seeded(self, crate, flags, start=None):
        """Returns a new folder whose folder seed holds what the crate's proof made."""
        room = tempfile.mkdtemp(prefix="edits-")
        made = start or self.seeds.get(crate.name, f"{crate.folder}/out/incremental")
        if os.path.isdir(made):
            linked(made, f"{room}/seed")
        return room

    def ci(self, anew=True, names=()):
        """Does what rt ci does, with each edit file as a task of its own."""
        if names:
            sys.exit("this kit's rt keeps nothing of earlier runs, so that only the whole repository can be proved: name no crates")
        in_lanes = self.rt.in_lanes
        self.rt.in_lanes = lambda tasks: self.by_edits(tasks, in_lanes)
        try:
            return self.ci_by_rt()
        finally:
            self.rt.in_lanes = in_lanes

    def by_edits(self, tasks, in_lanes):
        """Does rt ci's tasks with a task for each edit file, and returns what rt ci wants to be given of them."""
        crates = {it.name: it for it in self.rt.rtlib.crates_below(os.getcwd())}
        files = {name: self.rt.edits_of(crate) for name, crate in crates.items()}
        split = {key: task for key, task in tasks.items() if key[1] != "edits"}
        for name, (good, _) in files.items():
            waits, lines, memory, _ = tasks[name, "edits"]
            split |= self.tasks_of_edits(crates[name], good, waits, lines, memory)
        given = in_lanes(split)
        for name, (good, bad) in files.items():
            results = [given[self.key_of(name, it)] for it in good]
            given[name, "edits"] = bad, good, [(kind == self.rt.REFUSED, text) for kind, text in results]
        return given

    def key_of(self, name, edit):
        return name, "edits", os.path.basename(edit)

    def tasks_of_edits(self, crate, files, waits, lines, memory):
        """Returns a task for each of the crate's edit files."""
        call = lambda given, _, file: self.try_edit(crate, file, all(given[it] for it in waits))
        return {self.key_of(crate.name, it): (waits, lines, memory, lambda given, jobs, it=it: call(given, jobs, it)) for it in files}

    def try_edit(self, crate, edit, is_proved):
        """Tries an edit file over links to what the crate's proof made, a second time if it was proved."""
        result = self.rt.MISSED, f"{crate.name}/{os.path.basename(edit)}: not tried, as the crate is not proved"
        # (A check may have been killed for memory.)
        for _ in range(2 if is_proved else 0):
            room = self.rt.seeded(crate, [])
            try:
                result = self.rt.must_fail(crate, edit, ["--jobs", "1"], f"{room}/seed")
            finally:
                shutil.rmtree(room, ignore_errors=True)
            if result[0] == self.rt.REFUSED:
                break
        return result

    def edits_alone(self, names):
        """Tries the edits of these crates, or of all, over the proofs that rt check kept in out/."""
        rt, wanted = self.rt, [it for it in names if it != "--anew"]
        rt.rtlib.guarded()  # (its first call sets a signal's handler, which only the main thread may)
        crates = [it for it in rt.rtlib.crates_below(os.getcwd()) if not wanted or it.name in wanted]
        files = {it: rt.edits_of(it) for it in crates}
        with tempfile.TemporaryDirectory(prefix="edits-") as room:
            tempfile.tempdir, tasks = room, {}
            for crate in [it for it in crates if files[it][0]]:
                if any(dep.build_rlib(["--jobs", "1"], anew=False) for dep in crate.below()):
                    return 1
                proof, size = (crate.name, "proof"), (crate.count(rb"\n"), 0)
                tasks[proof] = [], *size, lambda _, jobs, it=crate: self.prove_over_kept(it, jobs, "--anew" in names)
                tasks |= self.tasks_of_edits(crate, files[crate][0], [proof], *size)
            given = rt.in_lanes(tasks)
            tempfile.tempdir = None
        results = [result for key, result in given.items() if key[1] == "edits"]
        passed = sum(kind == rt.REFUSED for kind, _ in results)
        failed = len(results) - passed + sum(len(bad) for _, bad in files.values())
        for _, text in results:
            rt.say(text)
        print(f"{passed} passed, {failed} failed")
        return 1 if failed else 0

    def prove_over_kept(self, crate, jobs, anew):
        """Returns whether a crate is proved over what its out/ holds. Its edits begin with what that made."""
        room = tempfile.mkdtemp(prefix="edits-") if anew else self.rt.seeded(crate, [])
        self.seeds[crate.name] = f"{room}/seed"
        ran = self.rt.checked(crate, {}, ["--jobs", str(jobs)], f"{room}/seed")
        if ran.returncode:
            self.rt.say(f"{crate.name} NOT PROVED\n{ran.stdout[-3000:]}")
        return not ran.returncode
