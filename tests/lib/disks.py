"""What a disk may have after each call of a run by which it changes files, from the record of these calls."""

import collections
import itertools
import operator
import os
import pathlib
import stat
import tempfile

from .folders import files_in
from .preloaded import environment
from .runs import ended
from .scenes import WHOLE

# the bits that no new file has
UMASK = 0o022

# A call that was recorded: what it is, its numbers, the names in it, and the bytes.
Call = collections.namedtuple("Call", "kind numbers names bytes")


# ---- the record of a run


class Recording:
    """The built programs by their names, and the library that records their calls."""

    def __init__(self, programs, library):
        self.programs, self.library = programs, library

    def ended(self, folder, program, words, **how):
        return ended([self.programs[program], *words], folder, **how)

    def recorded(self, folder, program, words, **how):
        """How a run ended, and its calls."""
        with tempfile.TemporaryFile() as record:
            its = record.fileno()
            left = self.ended(folder, program, words, pass_fds=[its], env=environment(self.library, RECORDED=its), **how)
            record.seek(0)
            return left, list(calls_in(record.read()))


def calls_in(record):
    at = 0
    while at < len(record):
        end = record.index(b"\n", at)
        kind, *words = record[at:end].decode().split(" ")
        numbers = [int(word) for word in words if word.isdecimal()]
        names = [word for word in words if not word.isdecimal()]
        at = end + 1
        count = numbers[1] if kind == "write" else 0
        yield Call(kind, numbers, names, record[at : at + count])
        at += count


# ---- what a disk has


class Stored:
    """A file: what was written of it, and what of that was flushed, its bytes and its bits."""

    def __init__(self, content, bits):
        self.written = self.flushed = (content, bits)

    def write(self, at, content):
        before, bits = self.written
        self.written = before[:at].ljust(at, b"\0") + content + before[at + len(content) :], bits

    def may_be(self):
        """What a loss of power may leave of it."""
        (new, bits), (old, _) = self.written, self.flushed
        torn = [] if new == old else [bytes(len(new)), new[: len(new) // 2]]
        return dict.fromkeys([self.flushed, self.written, *((each, mode) for each in torn for mode in (self.flushed[1], bits))])


class Disk:
    """Files of a folder, which are flushed, each with its bytes and its bits, and what comes of calls: the names that are seen, those that
    were flushed, and each change of one since then, with the number of the run that made it."""

    def __init__(self, files, umask=UMASK):
        found = {name: Stored(*file) for name, file in files.items()}
        self.names, self.flushed, self.changes = dict(found), dict(found), []
        self.opened, self.places, self.umask, self.run = {}, {}, umask, 0

    def change(self, *changed):
        """Names are given to a file, or taken from it: where it is None."""
        self.changes.append((self.run, changed))
        give(self.names, changed)

    def opens(self, number, flags, mode, name):
        file = self.names.get(name)
        if file is None and flags & os.O_CREAT:
            file = Stored(b"", mode & ~self.umask)
            self.change((name, file))
        if file and flags & os.O_TRUNC:
            file.written = b"", file.written[1]
        # a folder is its name
        self.opened[number], self.places[number] = file or name, 0

    def flush(self, number):
        file = self.opened.get(number)
        if isinstance(file, Stored):
            file.flushed = file.written
            return
        folder, kept = file.removeprefix("."), []
        for run, changed in self.changes:
            if any(os.path.dirname(name) == folder for name, _ in changed):
                give(self.flushed, changed)
            else:
                kept.append((run, changed))
        self.changes = kept

    def next_run(self):
        """What comes now is done by another run."""
        self.run, self.opened = self.run + 1, {}

    def done(self, call):
        """Does a call that was recorded."""
        names = [os.path.normpath(name) for name in call.names]
        number, *others = call.numbers or [None]
        file = self.opened.get(number)
        if call.kind == "open":
            self.opens(number, *others, *names)
        elif call.kind == "rename":
            self.change((names[0], None), (names[1], self.names[names[0]]))
        elif call.kind == "link":
            self.change((names[1], self.names[names[0]]))
        elif call.kind == "remove":
            self.change((names[0], None))
        elif call.kind == "flush":
            self.flush(number)
        elif call.kind == "close":
            self.opened.pop(number, None)
        elif isinstance(file, Stored):
            self.changes_file(call, file, number, others)

    def changes_file(self, call, file, number, others):
        content, bits = file.written
        if call.kind == "write":
            file.write(self.places[number], call.bytes)
            self.places[number] += len(call.bytes)
        elif call.kind == "cut":
            file.written = content[: others[0]].ljust(others[0], b"\0"), bits
        elif call.kind == "bits":
            file.written = content, others[0]

    def seen(self):
        return {name: file.written for name, file in self.names.items()}

    def left(self):
        """Each folder that a loss of power may leave now: its files by their names."""
        for last in {run for run, _ in self.changes} or {0}:
            before, own = ([changed for run, changed in self.changes if is_in(run, last)] for is_in in (operator.lt, operator.eq))
            for some in subsets(own):
                yield from self.with_names([*before, *some])

    def with_names(self, changes):
        names = dict(self.flushed)
        for changed in changes:
            give(names, changed)
        held = [file.may_be() if WHOLE or not is_new(name) else [file.written] for name, file in names.items()]
        yield from (dict(zip(names, files)) for files in itertools.product(*held))


def give(names, changed):
    for name, file in changed:
        if file is None:
            names.pop(name, None)
        else:
            names[name] = file


def subsets(things):
    return itertools.chain.from_iterable(itertools.combinations(things, count) for count in range(len(things) + 1))


def bits_of(folder, name):
    return stat.S_IMODE(pathlib.Path(folder, name).stat().st_mode)


def seen_in(folder):
    """The files of a folder, each with its bytes and its bits."""
    return {name: (content, bits_of(folder, name)) for name, content in files_in(folder).items()}


def is_new(name):
    return name.endswith(".bznew")
