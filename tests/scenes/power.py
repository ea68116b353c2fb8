#!/usr/bin/env python3
"""Takes the power away after each call of the built programs by which they change files, and looks at what the next runs find.

A small library of C (lib/preloaded/recorded.c) records a run's calls. From the record is made what a disk may have after each of them:

- the bytes of a file are there once the file was flushed; those that weren't may be missing, the last half of them, or zeros;
- the names of a folder are there once the folder was flushed; each that a run gave, changed or took since then may be there or not, in
  whatever order. Only where a run comes after another one the names of this one reach the disk first.

In every such folder each file must be whole, as it was or as a step of the run leaves it, with its rights, and a new text only beside the
journal from which the one before it comes back; all others as they were. There the journal lists a history with its mark at the
text that is there, undo by undo gives the earlier ones back, byte for byte, and the run itself, where its text is not there, is done again.

    [HOSTILE=whole] tests/scenes/power.py BUILDOZER BUILDIFIER

Where there is no C compiler the script says so, and nothing is tried. What may be left of a new file that has not yet taken the place of
another one is tried in the whole.
"""

import collections
import concurrent.futures
import contextlib
import operator
import os
import pathlib

from lib.disks import UMASK, Disk, Recording, is_new, seen_in
from lib.folders import files_in, new_folder, put
from lib.journal_format import digest
from lib.lines import too_far
from lib.preloaded import preloaded
from lib.scenes import PROCESSORS, Scenes, Wrong
from lib.stopped_runs import FIRST, FILE, JOURNAL, ODD, add

# the bits of the files before a run
BITS = 0o640


# ---- what must be there


class Stops(Wrong):
    """Runs of a program in a folder, each file's texts and journals after its steps, and what a loss of power during them leaves."""

    def __init__(self, programs, scene):
        super().__init__()
        self.programs, self.scene, self.histories = programs, scene, {}
        with new_folder() as folder:
            put(folder, scene.files)
            for file in pathlib.Path(folder).rglob("*"):
                file.chmod(BITS if file.is_file() else 0o755)
            for words in scene.before:
                self.expect(f"{words}", programs.ended(folder, scene.program, words).status, 0)
            self.first = seen_in(folder)
            self.record(folder)

    def record(self, folder):
        """Records the runs, and finds what a stop after each call may leave."""
        runs = []
        for words in self.scene.runs:
            ended, calls = self.programs.recorded(folder, self.scene.program, words)
            self.expect(f"{words}: {ended.err}", ended.status, 0)
            runs.append(calls)
        self.last = seen_in(folder)
        self.steps = {name: [pair_of(self.first, name), *self.steps_in(runs, name)] for name in self.scene.named}
        self.expect("the steps that were done", {name: len(steps) - 1 for name, steps in self.steps.items()}, self.scene.named)
        self.found = {frozenset(files.items()): files for files in self.left_in(runs)}
        unflushed = self.left_in([[call for call in calls if call.kind != "flush"] for calls in runs])
        self.expect("whether a lost flush would be seen", any(map(self.wrong_files, unflushed)), True)
        for name, steps in self.steps.items():
            seen = {pair_of(files, name) for files in self.found.values()}
            self.expect(f"whether the first text and the last one of {name} may be left", {steps[0], steps[-1]} <= seen, True)

    def disks(self, runs):
        """The disk before the first call and after each one, with the call."""
        disk = Disk(self.first)
        yield None, disk
        for calls in runs:
            disk.next_run()
            for call in calls:
                disk.done(call)
                yield call, disk
        # else a call was not recorded
        self.expect("what the record leaves", disk.seen(), self.last)

    def steps_in(self, runs, name):
        """A file and its journal after each call by which the file gets its name."""
        for call, disk in self.disks(runs):
            if call and call.kind == "rename" and os.path.normpath(call.names[1]) == name:
                yield pair_of(disk.seen(), name)

    def left_in(self, runs):
        """What a loss of power may leave before the first call, and after each one."""
        for _, disk in self.disks(runs):
            yield from disk.left()

    def steps_of(self, files, name):
        """The numbers of the steps after which a loss of power may have left this file and its journal: as after that one, or with the
        journal of the next one."""
        steps = self.steps[name]
        journals = [journal for _, journal in steps[1:]] + [None]
        return [number for number, (step, journal) in enumerate(zip(steps, journals)) if pair_of(files, name) in (step, (step[0], journal))]

    def others(self, files):
        """Those that no run edits."""
        known = {name for file in self.scene.named for name in (file, f"{file}.journal")}
        return {name: file for name, file in files.items() if name not in known and not is_new(name)}

    def wrong_files(self, files):
        """What is wrong with files that a loss of power left."""
        others = self.others(files)
        wrong = [] if others == self.others(self.first) else [f"others are {told_of(others)}"]
        lost = [name for name in self.scene.named if not self.steps_of(files, name)]
        return wrong + [f"a loss of power leaves {told_of(files)}, where {name} is as after none of {list(map(told_pair, self.steps[name]))}" for name in lost]

    def wrong_of(self, files):
        """The same, and what is wrong with what the next runs find."""
        wrong = self.wrong_files(files)
        if wrong:
            return wrong
        if self.scene.has_journal:
            wrong = [fault for name in self.scene.named for fault in self.wrong_history(files, name)]
        return wrong + self.wrong_again(files)

    def history(self, folder, name):
        """The texts that undo by undo gives, and how the last one ends."""
        texts = [files_in(folder).get(name)]
        while (ended := self.programs.ended(folder, "buildozer", ["--journal", "undo", target_of(name)])).status in (0, 3):
            texts.append(files_in(folder).get(name))
        return texts, ended

    def history_of(self, name, number):
        """The same after a step, where nothing was taken away."""
        if (name, number) not in self.histories:
            text, journal = self.steps[name][number]
            with laid({name: text, **({f"{name}.journal": journal} if journal else {})}) as folder:
                self.histories[name, number] = self.history(folder, name)
        return self.histories[name, number]

    def wrong_history(self, files, name):
        with laid(files) as folder:
            listed = self.programs.ended(folder, "buildozer", ["--journal", "journal", target_of(name)])
            marks = [line.split()[2] for line in listed.out.splitlines() if line.startswith(b"* ")]
            if (listed.status, listed.err, marks) != (3, b"", [digest(files[name][0])]):
                return [f"of {told_of(files)} is listed {listed}"]
            found = self.history(folder, name)
        wanted = self.history_of(name, self.steps_of(files, name)[0])
        end = (2, b"", too_far("undo", name))
        right = found == wanted and wanted[1] == end and wanted[0][-1] == self.scene.files[name]
        return [] if right else [f"of {told_of(files)} undo gives {found}, and not {wanted}"]

    def wrong_again(self, files):
        """The run, where none of what it does was done, leaves what it would have left, and nothing else."""
        if set(self.scene.named.values()) != {1} or any(self.steps_of(files, name)[-1] for name in self.scene.named):
            return []
        with laid(files) as folder:
            ends = [self.programs.ended(folder, self.scene.program, words) for words in self.scene.runs]
            after = seen_in(folder)
        right = all(end.status == 0 for end in ends) and after == self.last
        return [] if right else [f"after {told_of(files)} the same again: {ends}, {told_of(after)}"]


def pair_of(files, name):
    return files.get(name), files.get(f"{name}.journal")


def target_of(name):
    return f"//{os.path.dirname(name)}:__pkg__"


@contextlib.contextmanager
def laid(files):
    """A folder with these files, which goes."""
    with new_folder() as folder:
        for name, (content, bits) in files.items():
            put(folder, {name: content})
            pathlib.Path(folder, name).chmod(bits)
        yield folder


def told_file(file):
    return f"{len(file[0])} bytes, {file[1]:o}, {digest(file[0])[:8].decode()}" if file else "none"


def told_pair(pair):
    return tuple(map(told_file, pair))


def told_of(files):
    return {name: told_file(file) for name, file in files.items()}


# ---- scenes

# A program, the files before it, runs that come first and are flushed, the runs that are stopped, how many steps these do with each of the
# files that they edit, and whether there is a journal.
Scene = collections.namedtuple("Scene", "program files before runs named has_journal")


def kept(runs, before=(), count=1, **files):
    return Scene("buildozer", {FILE: FIRST, **files}, [["--journal", *words] for words in before], [["--journal", *words] for words in runs], {FILE: count}, True)


UNDO, REDO, BOTH = ["undo", "//:x"], ["redo", "//:x"], [add(":a"), add(":b")]
LINES = b"add deps :c|//:x\nundo|//:x\nadd deps :d|//:x\nset size small|//:x\n"
TWO = {"p/BUILD": FIRST, "q/BUILD": FIRST}
IN_TURN = b"add deps :c|//p:x|//q:x\nadd deps :d|//p:x|//q:x\nundo|//q:x|//p:x\n"
RUNS = {
    "a first edit": kept([add(":a")]),
    "a second edit": kept([add(":b")], [add(":a")]),
    "an undo": kept([UNDO], BOTH),
    "an undo to the first text": kept([["undo 2", "//:x"]], BOTH),
    "a redo": kept([REDO], [*BOTH, UNDO]),
    "a command after an undo": kept([add(":c")], [*BOTH, UNDO]),
    "an edit over what an earlier stop left": kept([add(":b")], [add(":a")], **{f"{FILE}.bznew": b"half", f"{JOURNAL}.bznew": b"half"}),
    "edits one after the other": kept([add(":b"), UNDO, REDO, add(":c")], [add(":a")], 4),
    "commands in one run": kept([["-f", "lines"]], [add(":a")], 4, lines=LINES),
    "commands on two packages in turn": Scene("buildozer", {**TWO, "lines": IN_TURN}, [], [["--journal", "-f", "lines"]], dict.fromkeys(TWO, 3), True),
    "an edit without a journal": Scene("buildozer", {FILE: FIRST}, [], [add(":a")], {FILE: 1}, False),
    "a file is formatted": Scene("buildifier", {"f": ODD}, [], [["f"]], {"f": 1}, False),
}  # fmt: skip


@contextlib.contextmanager
def all_stops(buildozer, buildifier):
    """What is wrong in each scene, by its name."""
    with preloaded("recorded") as (library,), concurrent.futures.ThreadPoolExecutor(PROCESSORS) as pool:
        if not library:
            yield None
            return
        os.umask(UMASK)
        recording = Recording({"buildozer": buildozer, "buildifier": buildifier}, library)
        stops = {name: Stops(recording, scene) for name, scene in RUNS.items()}
        found = {name: [pool.submit(stop.wrong_of, files) for files in stop.found.values()] for name, stop in stops.items()}
        SCENES.say(f"{sum(map(len, found.values()))} folders that a loss of power may leave")
        yield {name: [*stop.wrong, *(fault for each in found[name] for fault in each.result())] for name, stop in stops.items()}


SCENES = Scenes(__file__, {name: operator.itemgetter(name) for name in RUNS}, all_stops)

if __name__ == "__main__":
    SCENES.main()
