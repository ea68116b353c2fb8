"""What is kept of each run of buildozer-tree with --journal, so that it can be taken back: for each file the SHA-256 of its text before the
run and after it, which are those that `journal` lists at the cursor.

A record is written whole before the run begins, with the texts before it, and again when it has ended. While the run is on it holds the lock
of its number; a record that says 'running' and whose lock is free is of a run that was stopped. Of the last run that kept no journal a note
is kept. What is read may come from others, as with an archive of a repository.
"""
import contextlib
import dataclasses
import fcntl
import json
import os
import re
import stat
import time

from . import files, state
from .files import UNREAD
from .processes import stops
from .state import Unreadable

VERSION = 1
RUNNING, DONE, UNDONE = "running", "done", "undone"
# how many records are kept, and how many are listed
MOST, LISTED = 100, 10
ENDING, PLAIN = ".json", "plain"
DIGEST = re.compile("[0-9a-f]{64}")
# times that the system can spell
LATEST = 1 << 36


@dataclasses.dataclass
class Record:
    """A run. Files are by their names from the root of the workspace; each has the digests before and after, None while one isn't known."""

    number: int
    root: str
    line: str
    commands: list
    files: dict
    state: str = RUNNING
    time: float = 0.0
    # the number of the last run when this one was taken back
    last_then: int = 0
    # the files that the last undo or redo left as they are, and may go on with
    left: list = dataclasses.field(default_factory=list)

    @property
    def was_stopped(self):
        return self.state == RUNNING

    @property
    def goes_back(self):
        """Whether it was a run of `undo`, so that it is taken back forwards."""
        return bool(self.commands) and all(command.split(" ")[0] == "undo" for command in self.commands)

    def is_proper(self):
        """Whether each field has what this program writes, so that none leads out of the workspace."""
        texts = [self.root, self.line, *self.commands, *self.files, *self.left]
        numbers = [self.number, self.last_then, int(self.time)]
        return (
            all(type(text) is str for text in texts) and all(type(number) is int and 0 <= number < LATEST for number in numbers)
            and self.state in (RUNNING, DONE, UNDONE) and all(map(is_inside, [*self.files, *self.left])) and all(map(is_pair, self.files.values()))
        )  # fmt: skip


def is_inside(name):
    """Whether it is the name of a file that buildozer edits, from the root."""
    return not name.endswith((".journal", ".bznew", ".bzl")) and "\0" not in name and not {"", ".", ".."} & set(name.split("/"))


def is_pair(pair):
    return type(pair) is list and len(pair) == 2 and all(digest is None or type(digest) is str and DIGEST.fullmatch(digest) for digest in pair)


class Runs:
    """The records of a workspace, in a folder."""

    def __init__(self, folder, root):
        self.folder = os.path.join(folder, "runs")
        # so that both may be moved together
        self.root = os.path.relpath(os.path.realpath(root), os.path.realpath(folder))

    def file(self, number):
        return os.path.join(self.folder, f"{number:06}{ENDING}")

    def opened_lock(self, name):
        """The file of a lock of this folder: no link, and no pipe, which would be waited for."""
        state.make_folder(self.folder)
        held = open(os.open(os.path.join(self.folder, name), os.O_WRONLY | os.O_CREAT | os.O_NONBLOCK | os.O_NOFOLLOW | os.O_CLOEXEC, 0o666), "ab")
        if not stat.S_ISREG(os.fstat(held.fileno()).st_mode):
            raise OSError(0, "it is no regular file", name)
        return held

    @contextlib.contextmanager
    def lock(self):
        """Holds the lock of this folder, for which it waits."""
        with self.opened_lock("lock") as held:
            with stops():
                fcntl.flock(held, fcntl.LOCK_EX)
            yield

    @contextlib.contextmanager
    def held(self, number):
        """Holds the lock of a run; yields whether it was free."""
        name = f"{number:06}.lock"
        with self.opened_lock(name) as held:
            try:
                fcntl.flock(held, fcntl.LOCK_EX | fcntl.LOCK_NB)
            except OSError:
                yield False
                return
            try:
                yield True
            finally:
                with contextlib.suppress(OSError):
                    os.unlink(os.path.join(self.folder, name))

    def numbers(self):
        try:
            names = os.listdir(self.folder)
        except OSError:
            return []
        return sorted(int(name[: -len(ENDING)]) for name in names if re.fullmatch(r"[0-9]{6,9}\.json", name))

    def row(self, name):
        """What a file of this folder has; None where it isn't there."""
        file = os.path.join(self.folder, name)
        try:
            return json.loads(files.content(file, flags=os.O_NOFOLLOW), parse_int=lambda digits: int(digits[:20]))
        except FileNotFoundError:
            return None
        except (OSError, ValueError, RecursionError) as error:
            raise Unreadable(f"{file}: {getattr(error, 'strerror', None) or error}") from error

    def read(self, number):
        """The record of a number; None where there is none, or it is of another workspace."""
        row = self.row(os.path.basename(self.file(number)))
        if row is None:
            return None
        try:
            if row.pop("version") != VERSION:
                raise Unreadable(f"{self.file(number)}: it has another version")
            record = Record(**row)
            if record.number != number or not record.is_proper():
                raise ValueError
        except (ArithmeticError, AttributeError, LookupError, TypeError, ValueError) as error:
            raise Unreadable(f"{self.file(number)}: it is no record of a run") from error
        return record if record.root == self.root else None

    def all(self):
        """Yields the records, the last one first."""
        return filter(None, map(self.read, reversed(self.numbers())))

    def write(self, record):
        text = json.dumps({"version": VERSION, **dataclasses.asdict(record)}, indent=0).encode()
        if len(text) > files.MOST_OTHER:
            raise Unreadable(f"{self.file(record.number)}: it would have more than {files.MOST_OTHER:,} bytes: take fewer packages at once")
        state.write_whole(self.file(record.number), text)

    # ---- a run without a journal

    def note_plain(self, line):
        """Keeps that a run has changed files and kept no journal, if that can be."""
        row = {"root": self.root, "after": max(self.numbers(), default=0), "line": line, "time": int(time.time())}
        with contextlib.suppress(OSError):
            state.write_whole(os.path.join(self.folder, PLAIN), json.dumps(row).encode())

    def plain_since(self, number):
        """The command line of the last run that kept no journal, where it was after the run of a number; else None."""
        row = self.row(PLAIN)
        is_one = type(row) is dict and row.get("root") == self.root and type(row.get("after")) is int and type(row.get("line")) is str
        return row["line"] if is_one and row["after"] >= number else None

    # ---- a run with one

    @contextlib.contextmanager
    def begun(self, line, commands, texts):
        """Writes the record of a run that begins, with the texts before it, and holds its lock; yields the record."""
        with contextlib.ExitStack() as stack:
            with self.lock():
                number = max(self.numbers(), default=0) + 1
                record = Record(number, self.root, line, commands, {name: [None if before == UNREAD else before, None] for name, before in texts.items()}, time=time.time())
                stack.enter_context(self.held(number))
                self.write(record)
            yield record

    def end(self, record, after):
        """Writes the record of a run that has ended, with the texts of the files that it changed, or may have; a run that changed none leaves
        none. Gives the names of those of which a text isn't known."""
        changed = {name: digest for name, digest in after.items() if digest is not None and name in record.files and digest != record.files[name][0]}
        record.files = {name: [record.files[name][0], None if after == UNREAD else after] for name, after in sorted(changed.items())}
        if not record.files:
            self.forget(record.number)
            return []
        record.state = DONE
        with self.lock():
            self.write(record)
            for number in self.numbers()[:-MOST]:
                self.forget(number)
        return [name for name, pair in record.files.items() if None in pair]

    def forget(self, number):
        with contextlib.suppress(OSError):
            os.unlink(self.file(number))
