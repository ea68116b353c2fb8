#!/usr/bin/env python3
"""Looks at each act of the disk in runs of the built programs: what a new file is before it has its name, and what a look sees.

How a file of the system is created, flushed, locked, looked at and renamed is not proved: a new file's flush that is left out, a lock whose
answer is not heeded or a look that reads a byte too few changes no clause. So here, from the record of a run's calls (lib/preloaded/recorded.c), and
with runs that wait at a call (lib/preloaded/failing.c) while another program does something:

- a new file is made where nothing has its name, for its owner alone, is locked before the first byte, whole, given its rights, and
  flushed with them before it takes the place of another one; a folder is flushed after a journal alone, before its file is renamed;
- a failure of a flush is one of the act, but where the system has none for such a file; so is one of opening a folder, but where it may
  not be read;
- a new file whose lock another program takes is left to it;
- a byte that is appended to a file while a run is at it stays;
- of a file no byte is left out at the limit of a text;
- nobody may do more with a new file or a journal, at any call, than with the file.

    tests/scenes/disk_acts.py BUILDOZER BUILDIFIER

Where the script is not run as root, or there is no C compiler, it says what was not tried.
"""

import contextlib
import errno
import fcntl
import os
import signal

from lib.disks import Disk, Recording, Stored, is_new, seen_in
from lib.folders import in_folder, put
from lib.lines import NO_TOKEN, TOO_LARGE
from lib.preloaded import preloaded
from lib.runs import NOBODY
from lib.scenes import Scenes, named
from lib.stopped_runs import (
    FAILED, FILE, FIRST, FIXED, JOURNAL, LATE, MOST, MOST_LATE, NEW, ODD, UNWRITTEN, Place, add, bits_of, calls, emptied, outcome,
)  # fmt: skip
from lib.worked_rows import LONGEST

# each program with its words, the text before it, what another program appends to that, and how the run ends
RUNS = {
    "a file is formatted": ("buildifier", [FILE], ODD, b"y=2\n", (0, b"", b"")),
    "an edit": ("buildozer", add(":a"), FIRST, b'g(name = "y")\n', FIXED),
    "an edit with a journal": ("buildozer", ["--journal", *add(":a")], FIRST, b'g(name = "y")\n', FIXED),
}
# how a file is made where nothing has its name
ANEW = os.O_CREAT | os.O_EXCL
# errors by which a file system says that it flushes no such file
UNSUPPORTED = [errno.EINVAL, errno.EOPNOTSUPP, errno.ENOSYS]


def unwritten(program):
    return FAILED[program], *UNWRITTEN[1:]


# ---- the record of a run


def steps_of(p, program, words, umask=0o022):
    """How a run ended; and of each of its calls the call, and the disk right before it."""
    disk = Disk(seen_in(p.folder), umask)
    ended, found = p.recording.recorded(p.folder, program, words, umask=umask)

    def steps():
        for call in found:
            yield call, disk
            disk.done(call)

    return ended, steps()


def runs(p):
    """Each run over the text before it, and those that go on with a journal."""
    for program, words, text, _, end in RUNS.values():
        (p.folder / JOURNAL).unlink(missing_ok=True)
        put(p.folder, {FILE: text})
        yield program, words, end
    for words in (add(":b"), ["undo", "//:x"], ["redo", "//:x"]):
        yield "buildozer", ["--journal", *words], FIXED


def a_new_file_is_whole_and_flushed(p):
    for program, words, end in runs(p):
        ended, steps = steps_of(p, program, words)
        p.expect(f"{words}", tuple(ended), end)
        locked, renamed = set(), []
        for call, disk in steps:
            if call.kind == "open" and is_new(call.names[0]):
                flags, mode = call.numbers[1:]
                p.expect(f"{words}: how {call.names} is made", (flags & ANEW == ANEW, mode), (True, 0o600))
            file = disk.opened.get(call.numbers[0]) if call.numbers else None
            if call.kind == "lock":
                locked.add(file)
            if call.kind == "write" and isinstance(file, Stored):
                p.expect(f"{words}: is locked before its first byte", file in locked, True)
            if call.kind == "rename":
                renamed.append(call.names[1])
                new = disk.names[call.names[0]]
                p.expect(f"{words}: flushed before it is renamed to {call.names[1]}", new.flushed == new.written, True)
                waiting = [changed for _, changed in disk.changes if JOURNAL in dict(changed)]
                p.expect(f"{words}: the journal's name is flushed before {call.names[1]} is renamed", waiting, [])
        p.expect(f"{words}: what is renamed", renamed, [JOURNAL, FILE] if "--journal" in words else [FILE])


def flushes_are_few(p):
    """One of each new file, and one of the folder after a journal."""
    for program, words, _ in runs(p):
        _, steps = steps_of(p, program, words)
        flushed = [isinstance(disk.opened[call.numbers[0]], Stored) for call, disk in steps if call.kind == "flush"]
        p.expect(f"{words}: files that are flushed, and folders", (flushed.count(True), flushed.count(False)), (2, 1) if "--journal" in words else (1, 0))


def nobody_may_do_more(p):
    """At each call a new file and a journal have no bit that the file hasn't, whatever the mask, and whatever a journal had before."""
    for umask in (0, 0o022, 0o077):
        for bits in (0o600, 0o640, 0o664):
            (p.folder / JOURNAL).unlink(missing_ok=True)
            put(p.folder, {FILE: FIRST})
            (p.folder / FILE).chmod(bits)
            for words in (add(":a"), add(":b"), ["undo", "//:x"]):
                ended, steps = steps_of(p, "buildozer", ["--journal", *words], umask)
                p.expect(f"{words}", tuple(ended), FIXED)
                more = {f"{name} {file.written[1]:o}" for _, disk in steps for name, file in disk.names.items() if file.written[1] & ~bits}
                p.expect(f"{words}, umask {umask:o}, beside {bits:o}", more, set())
                p.expect("the bits after it", (bits_of(p.folder / FILE), bits_of(p.folder / JOURNAL) & ~bits), (bits, 0))
                # a journal that was there for all
                (p.folder / JOURNAL).chmod(bits)


# ---- failures of a flush


def each_flush(p, program, words, text, call, why):
    """Each call of a kind fails for this reason: what was called, how the run ended, and whether the file is as it was."""
    for number in range(1, MOST):
        emptied(p.folder)
        put(p.folder, {FILE: text})
        run, lines = p.failing(words, call, number, why, program)
        end = outcome(run)
        with lines:
            line = lines.readline().strip()
        if not line:
            return
        left = {file.name for file in p.folder.iterdir() if is_new(file.name)}
        p.expect(f"new files after {line}", left, set())
        yield line, end, p.text() == text


def a_flush_that_fails(p):
    """Each is told, the file is as it was, and nothing is left of the new ones; where the system has no flush of a file all goes on."""
    for program, words, text, _, end in RUNS.values():
        for why in (errno.EIO, errno.ENOSPC, errno.EDQUOT):
            for line, ended, is_kept in each_flush(p, program, words, text, "fsync", why):
                p.expect(f"{words}: {line} fails by {errno.errorcode[why]}", (ended, is_kept), (unwritten(program), True))
        for why in UNSUPPORTED:
            for line, ended, is_kept in each_flush(p, program, words, text, "fsync", why):
                p.expect(f"{words}: {line} fails by {errno.errorcode[why]}", (ended, is_kept), (end, False))


def a_folder_that_is_not_opened(p):
    """Where it may not be read all goes on; any other failure to open it is told."""
    program, words, text, _, end = RUNS["an edit with a journal"]
    for why, wanted in ((errno.EACCES, (end, False)), (errno.EMFILE, (unwritten(program), True)), (errno.EIO, (unwritten(program), True))):
        opened = [(ended, is_kept) for line, ended, is_kept in each_flush(p, program, words, text, "open", why) if line == "open ."]
        p.expect(f"a folder that is not opened by {errno.errorcode[why]}", opened, [wanted])
    if os.geteuid() == 0:
        (p.folder / JOURNAL).unlink(missing_ok=True)
        put(p.folder, {FILE: FIRST})
        for file in (p.folder, p.folder / FILE):
            os.chown(file, NOBODY, NOBODY)
        p.folder.chmod(0o333)
        p.expect("in a folder that may not be read", p.ended(words, user=NOBODY, group=NOBODY, extra_groups=[]), FIXED)


# ---- another program comes in between


def lock_of_another(p):
    """The new file whose lock is free, and that lock."""
    for new in (p.folder / NEW, p.folder / f"{JOURNAL}.bznew"):
        if new.exists():
            held = open(new, "rb+")
            try:
                fcntl.flock(held, fcntl.LOCK_EX | fcntl.LOCK_NB)
                return new, held
            except BlockingIOError:
                held.close()
    return None, None


def another_takes_the_lock(p):
    """Right before a run takes the lock of its new file: it leaves that to who has the lock, and says that it can't write."""
    for program, words, text, _, _ in RUNS.values():
        for number in range(1, 3 if "--journal" in words else 2):
            emptied(p.folder)
            put(p.folder, {FILE: text})
            run, lines = p.failing(words, "flock", number, "stop", program)
            with lines:
                p.expect(f"{words}: lock {number}", lines.readline() != "", True)
            os.waitid(os.P_PID, run.pid, os.WSTOPPED)
            new, held = lock_of_another(p)
            p.expect(f"{words}: a new file at lock {number}", new is not None, True)
            run.send_signal(signal.SIGCONT)
            p.expect(f"{words} where another has lock {number}", (outcome(run), p.text()), (unwritten(program), text))
            if new:
                p.expect("its new file", [file for file in p.folder.iterdir() if is_new(file.name)], [new])
                p.expect("which is the same", os.fstat(held.fileno()).st_nlink, 1)
                held.close()


def a_byte_is_appended(p, name):
    """It comes at each call of a run: it stays and is told, or is read with the rest."""
    program, words, text, appended, ended = RUNS[name]
    put(p.folder, {FILE: text + appended})
    p.expect("a run over both", p.ended(words, program), ended)
    both, late, told_late = p.text(), [], 0
    for what, run in calls(p, words, "stop", program, text):
        before = p.text()
        with open(p.folder / FILE, "ab") as file:
            file.write(appended)
        run.send_signal(signal.SIGCONT)
        end, after = outcome(run), p.text()
        if before != text:
            p.expect(f"appended after the rename, at {what}", (end, after), (ended, before + appended))
        elif after == text + appended:
            p.expect(f"appended at {what}", end, unwritten(program))
            told_late += 1
        elif (end, after) != (ended, both):
            late.append(what)
    p.expect("where it is lost", [what for what in late if not LATE.fullmatch(what)], [])
    p.expect("how often it is lost", len(late) <= MOST_LATE, True)
    p.expect("whether it comes between reading and writing", told_late > 2, True)


# ---- the limit of a text


def the_last_byte_of_the_longest_text(p):
    """A text of the most bytes is read, and one byte more is too much; of both programs, where the first byte is refused in either."""
    for program, words in (("buildifier", [FILE]), ("buildozer", add(":a")), ("buildozer", ["--journal", *add(":a")])):
        for length, line in ((LONGEST, b"BUILD:1:1: BadCharacter\n" + NO_TOKEN), (LONGEST + 1, b"BUILD: TooLarge\n" + TOO_LARGE)):
            put(p.folder, {FILE: b"$"})
            os.truncate(p.folder / FILE, length)
            p.expect(f"{program} {words}, {length} bytes", p.ended(words, program), (1 if program == "buildifier" else 2, b"", line))


@contextlib.contextmanager
def both(buildozer, buildifier):
    programs = {"buildozer": buildozer, "buildifier": buildifier}
    with preloaded("failing", "recorded") as (failing, recorded):
        yield failing and (programs, failing, Recording(programs, recorded))


def in_place(given, folder):
    *given, recording = given
    place = Place(*given, folder)
    place.recording = recording
    return place


ACTS = named(
    a_new_file_is_whole_and_flushed, flushes_are_few, nobody_may_do_more, a_flush_that_fails, a_folder_that_is_not_opened, another_takes_the_lock,
    the_last_byte_of_the_longest_text,
)  # fmt: skip
ACTS |= {f"a byte is appended at each call of {name}": lambda p, name=name: a_byte_is_appended(p, name) for name in RUNS}
SCENES = Scenes(__file__, ACTS, both, in_folder(in_place))

if __name__ == "__main__":
    SCENES.main()
