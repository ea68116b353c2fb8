#!/usr/bin/env python3
"""Runs the built programs with each of their calls to the system failing in turn, and looks at what they leave.

A small library of C (lib/preloaded/failing.c), which is between a program and the C library, lets the k-th open, read, write, flush, rename
or the like fail, by several errors, or be short, or ends the program right before it, or has another program change or remove a
file there; for k = 1, 2, .. until a run meets no such call; over each of the worked rows. Whatever fails, no run may end by a
signal of its own, and each file must be whole, as it was or as the run without a failure leaves it, but for those whose names
end in .bznew. A read or write that a signal interrupts changes nothing. A run that ends with the status of the one without a
failure must have left all that this one leaves; every other one must say what failed, by a line of docs/refusals.md, and end
with the status of a failure.

    [HOSTILE=whole] tests/scenes/failing_calls.py BUILDOZER BUILDIFIER

Where there is no C compiler the script says so, and nothing is tried.
"""

import collections
import contextlib
import errno
import os
import re
import signal

from lib import worked_rows
from lib.folders import files_in, new_folder, put
from lib.lines import FEWER, PACKAGE_HINT
from lib.preloaded import environment, preloaded
from lib.runs import ended
from lib.scenes import Scenes, sample
from lib.stopped_runs import FAILED, WAYS

# Calls at most of one kind in one run; there are a few tens.
MOST = 1000
SAMPLE = 14
# lines that say what failed, those that say so of what comes after it
FAULT = re.compile(rb"([^\n]*): cannot (open|write)")
DIRECTORY_HINT = rb"[^\n]*: if this is a directory, see buildifier-tree"
FOLLOWING = re.compile(rb"buildozer: [^\n]*: (?:undo|redo)[^\n]*: TooFar \(61\)|" + re.escape(FEWER.strip()) + b"|" + DIRECTORY_HINT)
HINTS = re.compile(re.escape(PACKAGE_HINT) + rb"|^" + DIRECTORY_HINT + rb"\n", re.MULTILINE)

# the calls from one on fail too
ONWARD = [("read", errno.EIO), ("write", errno.ENOSPC), ("open", errno.EMFILE), ("read", "short"), ("write", "short"), ("write", "none")]
# a call that a signal interrupts is made again, and a run in which that comes to pass leaves what it leaves without
AGAIN = [("read", errno.EINTR), ("write", errno.EINTR)]

# What a run leaves: the status, both outputs, and all files but those whose names end in .bznew.
Left = collections.namedtuple("Left", "status out err files")


def way_name(way):
    return way if isinstance(way, str) else errno.errorcode[way]


class Failing:
    """The built programs by their names, and the library under which their calls fail."""

    def __init__(self, programs, library):
        self.programs, self.library = programs, library

    def run(self, row, files, call="", number="", way="", **further):
        """What a run over these files leaves, and what failed in it: a line for each call."""
        ours, its = os.pipe()
        how = {"FAILING_TOLD": its, "FAILING_CALL": call, "FAILING_NUMBER": number, "FAILING_HOW": way, **further} if call else {}
        with new_folder() as folder:
            put(folder, files)
            left = ended([self.programs[row.program], *row.words], folder, input=row.text, env=environment(self.library, **how), pass_fds=[its])
            after = {name: text for name, text in files_in(folder).items() if not name.endswith(".bznew")}
        os.close(its)
        with open(ours) as lines:
            return Left(*left, after), lines.read().splitlines()

    def sweep(self, row, call, way, mark="", **further):
        """What each run left, with the number of the call and what failed in it; until none does."""
        for number in range(1, MOST):
            left, failed = self.run(row, row.files, call, f"{number}{mark}", way, **further)
            if not failed:
                return
            yield number, left, failed
        raise RuntimeError(f"{call}: no end")


# ---- what may be left


def is_cut_from(told_lines, lines):
    """Whether a text is beginnings of these lines, one after the other."""
    places = {0}
    for line in lines:
        places = {at + length for at in places for length in range(len(line) + 1) if told_lines.startswith(line[:length], at)}
    return len(told_lines) in places


def is_within(part, whole):
    """Whether the lines of a text occur in another one, in their order; the last one may be cut."""
    rest = iter(whole.splitlines(keepends=True))
    return all(any(other.startswith(line) for other in rest) for line in part.splitlines(keepends=True))


def without_hints(left):
    """What a run left, but for what it says a package is, where no file of it is there, and what formats a directory, where a file is."""
    return left._replace(err=HINTS.sub(b"", left.err))


class Allowed:
    """What a row leaves when nothing fails, and when some of its files are not there."""

    def __init__(self, failing, row):
        self.row = row
        self.ample = failing.run(row, row.files)[0]
        others = [failing.run(row, {kept: text for kept, text in row.files.items() if kept != name})[0] for name in row.files]
        self.all = [self.ample, *others]
        # where a file is not found it stays, and all goes as if it weren't there
        self.whole = [left._replace(files={**row.files, **left.files}) for left in self.all]

    def contents(self, name):
        found = [left.files[name] for left in self.all if name in left.files]
        return [self.row.files[name], *found] if name in self.row.files else found

    def files_wrong(self, left):
        wrong = [f"{name}: {text!r}" for name, text in left.files.items() if text not in self.contents(name)]
        return wrong + [f"{name} is gone" for name in self.row.files if name not in left.files]

    def unlike(self, left):
        return [] if left == self.ample else [f"{left}, and not {self.ample}"]

    def faults(self, left, failed):
        """What is wrong with what a run left in which these calls failed."""
        if left.status < 0:
            return [f"signal {-left.status}"]
        if without_hints(left) in map(without_hints, self.whole):
            return []
        if all(line == "write 2" for line in failed):
            same = left._replace(err=b"") == self.ample._replace(err=b"")
            return [] if same and is_cut_from(left.err, self.ample.err.splitlines(keepends=True)) else [f"standard error failed: {left}"]
        return self.files_wrong(left) + self.told_wrong(left, failed)

    def told_wrong(self, left, failed):
        """Where something is not as without a failure that must be reported, and the status with it."""
        lines = left.err.splitlines()
        known = {line for run in self.all for line in run.err.splitlines()}
        faults = [found for found in map(FAULT.fullmatch, lines) if found]
        new = [found for found in faults if found[0] not in self.ample.err.splitlines()]
        cuts = "write 2" in failed
        wrong = [] if new or cuts else [f"nothing is reported: {left}"]
        # lines of operands that can't be read are a fault of usage
        usage = {1} if self.row.program == "buildozer" and "-f" in self.row.words else set()
        if left.status not in {FAILED[self.row.program]} | usage:
            wrong.append(f"status {left.status}")
        if not cuts:
            wrong += [f"the line {line}" for line in lines if line not in known and not FAULT.fullmatch(line) and not FOLLOWING.fullmatch(line)]
        unwritten = {found[1].decode() for found in faults if found[2] == b"write"}
        wrong += [f"{name} is written, and reported as not written" for name in unwritten & set(self.row.files) if left.files.get(name) != self.row.files[name]]
        if not any(is_within(left.out, run.out) for run in self.all):
            wrong.append(f"standard output {left.out!r}")
        return wrong


# ---- scenes


def each_call_fails(row):
    def wrong(failing):
        allowed, found = Allowed(failing, row), []
        if allowed.ample.status != row.status:
            found.append(f"status {allowed.ample.status} without a failure, and not {row.status}")
        ways = [(call, way, "") for call, ways in WAYS.items() for way in ways] + [(call, way, "-") for call, way in ONWARD]
        seen = 0
        for call, way, mark in ways:
            for number, left, failed in failing.sweep(row, call, way, mark):
                seen += 1
                faults = allowed.unlike(left) if (call, way) in AGAIN else allowed.faults(left, failed)
                found += [f"{call} {number}{mark} {way_name(way)}: {fault}" for fault in faults]
        return found + ([] if seen else ["no call was seen, so none failed"])

    return wrong


def each_call_is_the_last(row):
    """The program is killed right before it: each file is whole, and a run after that leaves what the first one would."""

    def wrong(failing):
        allowed, found = Allowed(failing, row), []
        for call in WAYS:
            for number, left, _ in failing.sweep(row, call, "kill"):
                fault = allowed.files_wrong(left) + ([f"status {left.status}"] if left.status != -signal.SIGKILL else [])
                found += [f"killed at {call} {number}: {each}" for each in fault]
        return found

    return wrong


CHANGED = b"another = 1\n"
EDITS = {
    "buildifier": worked_rows.Row("buildifier", ["f"], b"", {"f": b"x=1\n"}),
    "buildozer": worked_rows.Row("buildozer", ["set k 1", "//:x"], b"", {"BUILD": b'f(name="x")\n'}),
}


def another_program(program, way):
    """It changes or removes the file right before a call: what it left stays, but where it comes in between the last read of the file
    and the rename, when nobody can know; the new file is there before that read."""
    row = EDITS[program]
    (name, before), *_ = row.files.items()
    line = f"{name}: cannot write\n".encode()
    # the folder is flushed after the rename, and a change that comes then is one of a file that was written
    unharmed = (b"", f"fixed {name}\n".encode())

    def wrong(failing):
        found, after = [], failing.run(row, row.files)[0].files[name]
        further = {"FAILING_FILE": name, "FAILING_BYTES": CHANGED.decode()}
        for call in ("open", "read", "close"):
            for number, left, failed in failing.sweep(row, call, way, **further):
                text = left.files.get(name)
                is_told = line in left.err and left.status == FAILED[program]
                if failed[0].endswith(".bznew"):
                    # the file is read again after that
                    is_right = text == (CHANGED if way == "change" else None) and is_told
                elif way == "change":
                    # read as a whole before or after the change, or reported
                    is_right = text == CHANGED and (is_told or left.err in unharmed or b": cannot" in left.err or b"(41)" in left.err) or text == after
                else:
                    is_right = text is None or text == after
                if left.status < 0 or not is_right:
                    found.append(f"{way} before {call} {number}, of {failed[0]}: {left}, from {before}")
        return found

    return wrong


def a_left_file_is_written_over(failing):
    """Where a run was killed with its new file half written, the next one leaves what the first one would, and nothing else."""
    row = worked_rows.ROWS["a package is edited"]
    name = worked_rows.PACKAGE_FILE
    after = failing.run(row, row.files)[0].files
    found = []
    with new_folder() as folder:
        put(folder, {**row.files, f"{name}.bznew": b"half"})
        ended([failing.programs["buildozer"], *row.words], folder)
        if files_in(folder) != after:
            found.append(f"{files_in(folder)}, and not {after}")
    return found


def scenes():
    names = dict.fromkeys([*sample(worked_rows.ROWS, SAMPLE), *worked_rows.KEPT_ROWS])
    found = {f"each call fails, {name}": each_call_fails(worked_rows.ROWS[name]) for name in names}
    with_files = [name for name, row in worked_rows.ROWS.items() if row.files]
    found |= {f"killed at each call, {name}": each_call_is_the_last(worked_rows.ROWS[name]) for name in dict.fromkeys([*sample(with_files, 6), *worked_rows.KEPT_ROWS])}
    for program in EDITS:
        found |= {f"another program's {way} beside {program}": another_program(program, way) for way in ("change", "remove")}
    return found | {"a left file is written over": a_left_file_is_written_over}


@contextlib.contextmanager
def failing(buildozer, buildifier):
    with preloaded("failing") as (library,):
        yield library and Failing({"buildozer": buildozer, "buildifier": buildifier}, library)


SCENES = Scenes(__file__, scenes(), failing)

if __name__ == "__main__":
    SCENES.main()
