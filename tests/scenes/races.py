#!/usr/bin/env python3
"""Runs the built programs beside one another, beside an editor, and over what others have put in their way.

Many runs of buildozer edit one file at once, with and without --journal; a second run, an editor that saves, or whoever changes the rights of
the file, comes at each call of a first one, which waits there (lib/preloaded/failing.c); a run is killed at each call; links, pipes, devices and folders are where a file is to be;
and a file has owners, groups and bits of many kinds. What must be there:

- a run that ends with 0 has its edit in the file, and one that reports `cannot write` hasn't;
- whoever reads the file meanwhile sees a text that some run wrote, and an editor's text is not lost;
- a change of its bits, owner or group stays, and who has read the file before it reports `cannot write`;
- the journal goes on, and nothing is left of a new file, or the next run takes it away;
- nothing is written through what was there under the new file's name.

Where the script is not run as root, or there is no C compiler, it says what was not tried.

    [HOSTILE=whole] tests/scenes/races.py BUILDOZER BUILDIFIER
"""

import contextlib
import fcntl
import os
import pathlib
import re
import signal
import stat
import subprocess
import threading

from lib.folders import files_in, in_folder, new_folder, put
from lib.preloaded import preloaded
from lib.runs import NOBODY, copies
from lib.scenes import WHOLE, Scenes, named
from lib.stopped_runs import (
    FAILED, FILE, FIRST, FIXED, JOURNAL, LATE, MOST, MOST_LATE, NEW, ODD, UNWRITTEN, Place, add, bits_of, calls, emptied, outcome,
)  # fmt: skip

AT_ONCE = 8
ROUNDS = 100 if WHOLE else 8
LAID_OUT = re.compile(rb'f\(\n    name = "x",\n    deps = \[((?:"[^"]*")|(?:\n(?:        "[^"]*",\n)+    ))\],\n\)\n')
# a user and a group that are not those of the runs
OTHER = 12_345


def labels_in(text):
    """The labels that were added to a text, in their order; None where it is no text that a run writes."""
    if text == FIRST:
        return []
    found = LAID_OUT.fullmatch(text)
    return re.findall(rb'"([^"]*)"', found[1]) if found else None


def goes_on(p, what, journal):
    """The next run does its edit, and leaves no new file; and a journal lists a history at the text that is there."""
    p.expect(f"the run after {what}", p.ended([*journal, *add(":next")]), FIXED)
    p.expect(f"an edit after {what}", b":next" in labels_in(p.text()), True)
    new = [file.name for file in p.folder.iterdir() if file.suffix == ".bznew"]
    p.expect(f"new files after {what}", new, [])
    if journal:
        status, out, err = p.ended(["--journal", "journal", "//:x"])
        p.expect(f"the journal after {what}", (status, err, len(out) > 0), (3, b"", True))


# ---- many at once


class Reader(threading.Thread):
    """Reads a file as often as it can, and keeps the texts that it sees."""

    def __init__(self, file):
        super().__init__()
        self.file, self.seen, self.is_over = file, set(), threading.Event()

    def run(self):
        while not self.is_over.is_set():
            self.seen.add(self.file.read_bytes())

    def texts(self):
        self.is_over.set()
        self.join()
        return self.seen


def many_at_once(p, journal):
    """Each of the runs adds a label of its own."""
    for number in range(ROUNDS):
        if number % 10 == 0:
            # a history that goes on for long takes long
            (p.folder / JOURNAL).unlink(missing_ok=True)
            put(p.folder, {FILE: FIRST})
        before = labels_in(p.text())
        reader = Reader(p.folder / FILE)
        reader.start()
        labels = [b":r%d-%d" % (number, run) for run in range(AT_ONCE)]
        runs = [p.start([*journal, *add(label.decode())]) for label in labels]
        ended = dict(zip(labels, map(outcome, runs)))
        seen = [labels_in(text) for text in reader.texts()]
        after = labels_in(p.text())
        if after is None or None in seen:
            p.wrong.append(f"round {number}: {seen}, {after}")
            return
        for label, (status, out, err) in ended.items():
            p.expect(f"round {number}, {label}: {status} {err}", (status != 0 or label in after, out), (True, b""))
            is_known = (status, out, err) == FIXED or status == 2 and (out, err) != (b"", b"")
            p.expect(f"round {number}, the end of {label}: {status} {out} {err}", is_known, True)
        added = {*before, *(label for label, end in ended.items() if end == FIXED)}
        # one that is replaced right after its rename is told as unwritten
        told = {label for label, end in ended.items() if end == UNWRITTEN}
        p.expect(f"round {number}, what is there", added <= set(after) <= added | told, True)
        unknown = [text for text in seen if not {*before} <= {*text} <= added | told]
        p.expect(f"round {number}, what was read", unknown, [])
    goes_on(p, "many at once", journal)


def second_run(p, journal, other):
    """It comes at each call of a first one, which then goes on: whoever ends with 0 has its edit there, and nobody else."""
    for what, run in calls(p, [*journal, *add(":first")], "stop"):
        second = p.ended([*other, *add(":second")])
        run.send_signal(signal.SIGCONT)
        first = outcome(run)
        after = labels_in(p.text())
        ends = {b":first": first, b":second": second}
        wanted = {label for label, end in ends.items() if end == FIXED}
        p.expect(f"a second run at {what}: {ends}", set(after or [b"torn"]), wanted)
        if not wanted or any(end not in (FIXED, UNWRITTEN) for end in ends.values()):
            p.wrong.append(f"a second run at {what}: {ends}")
        # a run without a journal makes one stale
        goes_on(p, what, other and journal)


SAVED = b'f(name = "x", saved = 1)\n'
def editor_saves(p, journal):
    """It saves at each call of a run, by a rename: its text stays, and the run says so, or has edited just that; at few calls it is
    lost, since no system has a rename that looks first."""
    lost = []
    for what, run in calls(p, [*journal, *add(":first")], "stop"):
        before = p.text()
        put(p.folder, {"saved": SAVED})
        (p.folder / "saved").rename(p.folder / FILE)
        run.send_signal(signal.SIGCONT)
        end, text = outcome(run), p.text()
        if before != FIRST:
            p.expect(f"an editor after the rename, at {what}", (end, text), (FIXED, SAVED))
        elif text == SAVED:
            p.expect(f"an editor at {what}", end[0], 2)
        elif not (b"saved = 1" in text and b":first" in text and end == FIXED):
            lost.append(what)
    if len(lost) > MOST_LATE or not all(map(LATE.fullmatch, lost)):
        p.wrong.append(f"an editor's save is lost at {lost}")


def own_bits(file):
    file.chmod(bits_of(file) ^ 0o044)
    return bits_of(file)


def own_owner(file):
    os.chown(file, OTHER, OTHER)
    return OTHER, OTHER


# how another program changes who may do what with a file, and what is seen of that
RIGHTS = {
    "chmod": (own_bits, bits_of),
    "chown": (own_owner, lambda file: (file.stat().st_uid, file.stat().st_gid)),
}


def rights_change(p, how, journal):
    """Another program changes them at each call of a run: they stay, and a run that has read the file before reports that it can't write it;
    at few calls they are lost, since no system has a rename that looks first."""
    change, seen = RIGHTS[how]
    lost, ends = [], set()
    for what, run in calls(p, [*journal, *add(":first")], "stop"):
        wanted = change(p.folder / FILE)
        run.send_signal(signal.SIGCONT)
        end = outcome(run)
        ends.add(end)
        if seen(p.folder / FILE) != wanted:
            lost.append(what)
        p.expect(f"{how} at {what}, after {end}", labels_in(p.text()), [b":first"] if end == FIXED else [])
    p.expect(f"how runs end at which {how} comes", ends, {FIXED, UNWRITTEN})
    if len(lost) > MOST_LATE or not all(map(LATE.fullmatch, lost)):
        p.wrong.append(f"{how} is lost at {lost}")


def between_two_commands(p, journal):
    """Another program writes the file, or removes it, when a run opens a second package, between two commands on the first one: what
    it did stays, and is reported."""
    lines = b"add deps :first|//:x\nprint name|//c:x\nadd deps :second|//:x\n"
    for way, text in (("change", SAVED), ("remove", None)):
        for number in range(1, MOST):
            (p.folder / JOURNAL).unlink(missing_ok=True)
            put(p.folder, {FILE: FIRST, "c/BUILD.bazel": FIRST, "lines": lines})
            run, told_calls = p.failing(
                ["-k", *journal, "-f", "lines"], "open", number, way, FAILING_FILE=FILE, FAILING_BYTES=SAVED.decode()
            )
            end = outcome(run)
            with told_calls:
                if told_calls.readline() != "open c/BUILD.bazel\n":
                    continue
            found = p.text() if (p.folder / FILE).exists() else None
            p.expect(f"{way} between two commands", (found, end[:2]), (text, (2, b"x\n")))
            p.expect(f"what is reported of {way}", end[2] in (UNWRITTEN[2], UNWRITTEN[2] + FIXED[2]), True)
            break
        else:
            p.wrong.append("the second package was not opened")


def killed_at_each_call(p, journal):
    """The next run goes on, and takes away what was left."""
    for what, run in calls(p, [*journal, *add(":first")], "kill"):
        p.expect(f"killed at {what}", outcome(run)[0], -signal.SIGKILL)
        p.expect(f"the text of one killed at {what}", labels_in(p.text()) in ([], [b":first"]), True)
        goes_on(p, f"one killed at {what}", journal)


# ---- what is exchanged by another user, or whoever moves folders

SECRET = {"buildozer": (FIRST, add(":a")), "buildifier": (ODD, [FILE])}
# the calls around which a file is looked up
LOOKS = ["open", "read", "statx", "fsync", "close"] if WHOLE else ["open", "statx"]
# what tells that a run hangs, in seconds
HANGS = 10


def stops(p, words, call, number, program):
    """A run that waits at a call and at each further one of its kind; what is given is which one it waits at, each time that it does."""
    run, lines = p.failing(words, call, f"{number}-", "stop", program)
    with lines:
        while line := lines.readline():
            os.waitid(os.P_PID, run.pid, os.WSTOPPED)
            yield line.strip()
            run.send_signal(signal.SIGCONT)
    outcome(run)


def anothers_secret(p, program, journal):
    """A BUILD that is a link to a file of whoever runs the program alone is exchanged for a file of another user, at each call: nobody else
    may read at any moment what came of it."""
    text, words = SECRET[program]
    with new_folder() as private:
        secret = pathlib.Path(private, "secret")
        secret.write_bytes(text)
        secret.chmod(0o600)
        for call in LOOKS:
            for number in range(1, MOST):
                emptied(p.folder)
                (p.folder / FILE).symlink_to(secret)
                put(p.folder, {"mine": b"y = 2\n"})
                (p.folder / "mine").chmod(0o666)
                os.chown(p.folder / "mine", NOBODY, NOBODY)
                at = None
                for what in stops(p, [*journal, *words], call, number, program):
                    if not at:
                        at = what
                        (p.folder / "mine").rename(p.folder / FILE)
                    for file in p.folder.iterdir():
                        found = file.stat()
                        if b"f(" in file.read_bytes() or b"x" in file.read_bytes():
                            p.expect(f"{program}, {file.name} at {what} after {call} {number} ({at})", (found.st_uid, stat.S_IMODE(found.st_mode) & 0o077), (os.getuid(), 0))
                if not at:
                    break


def a_folder_is_exchanged(p, program, journal):
    """The link to the folder is given another one at each call, where the same text is: what lies there under the name of a new file is
    nobody's text, and who ends well has edited one of the two."""
    text, words = SECRET[program]
    words = [*journal, words[0], "//now:x"] if program == "buildozer" else ["now/BUILD"]
    half, late = b"half", []
    for what, run in calls(p, words, "stop", program, text, folders=True):
        for name in (FILE, JOURNAL):
            put(p.folder, {f"two/{name}.bznew": half})
        put(p.folder, {f"two/{FILE}": text})
        (p.folder / "next").symlink_to("two")
        (p.folder / "next").rename(p.folder / "now")
        run.send_signal(signal.SIGCONT)
        end = outcome(run)
        found = files_in(p.folder / "two")
        if half in (found.get(FILE), found.get(JOURNAL)):
            late.append(what)
            p.expect(f"{program} {words}, where another's file was renamed at {what}", end[0] in (2, 3), True)
        elif end[0] == 0:
            p.expect(f"{program} {words} at {what}, which ended with {end}", found[FILE] != text or files_in(p.folder / "one")[FILE] != text, True)
    renames = 2 if journal else 1
    p.expect(f"{program} {words}: where it comes between the last look and the rename", [what for what in late if not what.startswith("rename ")], [])
    p.expect(f"{program} {words}: how often", len(late) <= renames, True)


def a_pipe_when_it_is_opened(p):
    """What another user has under the name of a new file is exchanged for a pipe right before it is opened: the run ends."""
    for program, (text, words) in SECRET.items():
        for journal in [[], ["--journal"]] if program == "buildozer" else [[]]:
            for number in range(1, MOST):
                emptied(p.folder)
                put(p.folder, {FILE: text, NEW: b"left", f"{JOURNAL}.bznew": b"left"})
                run, lines = p.failing([*journal, *words], "open", number, "stop", program)
                with lines:
                    name = lines.readline().strip().removeprefix("open ")
                if name:
                    os.waitid(os.P_PID, run.pid, os.WSTOPPED)
                    if name.endswith(".bznew"):
                        remove(p.folder / name)
                        os.mkfifo(p.folder / name)
                    run.send_signal(signal.SIGCONT)
                try:
                    run.communicate(timeout=HANGS)
                except subprocess.TimeoutExpired:
                    run.kill()
                    run.communicate()
                    p.wrong.append(f"{program} {journal}: hangs where {name} is a pipe at open {number}")
                if not name:
                    break


# ---- what is in the way


def each_program(p, act):
    """Both programs, with the words of a run, the file that it replaces, the bytes before and after it, and the line of it."""
    put(p.folder, {"f": ODD})
    for program, words, name, before, line in (
        ("buildozer", add(":a"), FILE, FIRST, b"fixed BUILD\n"),
        ("buildifier", ["f"], "f", ODD, b""),
        ("buildozer", ["--journal", *add(":a")], FILE, FIRST, b"fixed BUILD\n"),
    ):
        put(p.folder, {name: before})
        act(program, words, name, before, line)
        for left in (NEW, JOURNAL, f"{JOURNAL}.bznew", "f.bznew"):
            remove(p.folder / left)


def remove(file):
    if file.is_dir() and not file.is_symlink():
        file.rmdir()
    else:
        file.unlink(missing_ok=True)


def planted_links(p):
    """A link goes, and nothing is written through it; nor through a pipe or a device; a folder is reported."""
    put(p.folder, {"precious": b"precious"})
    makers = [
        lambda new: new.symlink_to("precious"), lambda new: new.symlink_to("none"), lambda new: new.symlink_to(new.name),
        lambda new: new.symlink_to("/dev/null"), os.mkfifo, lambda new: new.write_bytes(b"left"),
    ]  # fmt: skip

    def act(program, words, name, before, line):
        for new in [p.folder / f"{kept}.bznew" for kept in (name, JOURNAL)]:
            for make in makers:
                put(p.folder, {name: before})
                make(new)
                p.expect(f"{program} {words} over what was planted", p.ended(words, program), (0, b"", line))
                p.expect("nothing is left of it", os.path.lexists(new), "--journal" not in words and new.stem == JOURNAL)
                remove(new)
            put(p.folder, {name: before})
            new.mkdir()
            if "--journal" in words or new.stem == name:
                end = FAILED[program], b"", f"{name}: cannot write\n".encode()
                p.expect(f"{program} {words} beside a folder", p.ended(words, program), end)
                p.expect("the file beside a folder", (p.folder / name).read_bytes(), before)
            new.rmdir()

    each_program(p, act)
    p.expect("what links name", files_in(p.folder).get("precious"), b"precious")


def a_held_file(p):
    """One whose lock is held is another run's; one that nobody holds is a left one, whatever its bits."""
    def act(program, words, name, before, line):
        new = p.folder / f"{name}.bznew"
        with open(new, "wb") as held:
            fcntl.flock(held, fcntl.LOCK_EX)
            end = FAILED[program], b"", f"{name}: cannot write\n".encode()
            p.expect(f"{program} {words} beside another run", p.ended(words, program), end)
            p.expect("both files", ((p.folder / name).read_bytes(), new.exists()), (before, True))
        new.chmod(0o400)
        p.expect(f"{program} {words} after it", p.ended(words, program), (0, b"", line))
        p.expect("nothing is left", new.exists(), False)

    each_program(p, act)


def names_of_pipes_and_devices(p):
    """They are not opened, and stay; a link to a file is as the file; lines of commands may come from a pipe."""
    for make in (os.mkfifo, lambda file: file.symlink_to("/dev/null"), lambda file: file.symlink_to("/dev/zero")):
        remove(p.folder / FILE)
        make(p.folder / FILE)
        for words in (add(":a"), ["--journal", *add(":a")]):
            p.expect("a package that is no file", p.ended(words), (2, b"", b"BUILD: cannot open\n"))
        p.expect("one for buildifier", p.ended([FILE], "buildifier"), (3, b"", b"BUILD: cannot open\n"))
        p.expect("its name", (p.folder / FILE).is_file(), False)
        remove(p.folder / FILE)
        put(p.folder, {FILE: FIRST})
        make(p.folder / JOURNAL)
        p.expect("a journal that is no file", p.ended(["--journal", *add(":a")]), (2, b"", b"BUILD.journal: cannot open\n"))
        p.expect("the file beside it", p.text(), FIRST)
        remove(p.folder / JOURNAL)
    said = b"/dev/null: cannot open\n/dev/null: if this is a directory, see buildifier-tree\n"
    p.expect("a device by its name", p.ended(["/dev/null"], "buildifier"), (3, b"", said))
    os.mkfifo(p.folder / "lines")
    run = p.start(["-f", "lines"])
    (p.folder / "lines").write_bytes(b"add deps :a|//:x\n")
    p.expect("lines from a pipe", outcome(run), FIXED)


# ---- who may do what


def bits(p):
    """They stay, but for those that give rights to who runs it; a journal has no more than its file, also where it had."""
    for mode in (0o600, 0o640, 0o444, 0o755, 0o664, 0o4755, 0o2755, 0o1644):
        put(p.folder, {"f": ODD})
        (p.folder / "f").chmod(mode)
        p.expect(f"{mode:o}", (p.ended(["f"], "buildifier")[0], bits_of(p.folder / "f")), (0, mode & 0o777))
        (p.folder / "f").chmod(0o600)
    for number, (file, journal, wanted) in enumerate([(0o600, 0o644, 0o600), (0o644, 0o600, 0o600), (0o640, 0o664, 0o640), (0o664, 0o644, 0o644)]):
        p.ended(["--journal", *add(f":a{number}")])
        (p.folder / FILE).chmod(file)
        (p.folder / JOURNAL).chmod(journal)
        p.expect("an edit", p.ended(["--journal", *add(f":b{number}")]), FIXED)
        p.expect(f"{file:o} beside {journal:o}", (bits_of(p.folder / FILE), bits_of(p.folder / JOURNAL)), (file, wanted))


def in_turn(p, what, user, groups, owner, mode, wanted):
    """A user of these groups edits a file of another owner and group, which has these bits then."""
    (p.folder / JOURNAL).unlink(missing_ok=True)
    put(p.folder, {FILE: FIRST})
    os.chown(p.folder / FILE, *owner)
    (p.folder / FILE).chmod(mode)
    how = {"user": user, "group": user, "extra_groups": groups}
    p.expect(what, p.ended(["--journal", *add(":a")], **how), FIXED)
    for file in (p.folder / FILE, p.folder / JOURNAL):
        found = file.stat()
        p.expect(f"{what}: {file.name}", (found.st_uid, found.st_gid, bits_of(file)), wanted)


def owners(p):
    """Owner and group stay where the system lets; where the group can't, it loses its bits, and others what it didn't have."""
    p.folder.chmod(0o777)
    in_turn(p, "root", 0, [], (OTHER, OTHER), 0o640, (OTHER, OTHER, 0o640))
    in_turn(p, "root, setuid and setgid", 0, [], (OTHER, OTHER), 0o6755, (OTHER, OTHER, 0o755))
    in_turn(p, "a member of the group", NOBODY, [OTHER], (NOBODY, OTHER), 0o640, (NOBODY, OTHER, 0o640))
    in_turn(p, "no member", NOBODY, [], (NOBODY, OTHER), 0o640, (NOBODY, NOBODY, 0o600))
    in_turn(p, "no member, and others may", NOBODY, [], (NOBODY, OTHER), 0o664, (NOBODY, NOBODY, 0o604))
    in_turn(p, "no member, and the group may not", NOBODY, [], (NOBODY, OTHER), 0o604, (NOBODY, NOBODY, 0o600))
    in_turn(p, "another owner", NOBODY, [OTHER], (OTHER, OTHER), 0o640, (NOBODY, OTHER, 0o640))


def sticky_folders(p):
    """What another user has planted there can't be removed: that is reported, and nothing is written through it."""
    put(p.folder, {"precious": b"precious", "f": ODD})
    for file in (FILE, "precious", "f"):
        os.chown(p.folder / file, NOBODY, NOBODY)
    p.folder.chmod(0o1777)
    how = {"user": NOBODY, "group": NOBODY, "extra_groups": []}
    for make in (lambda new: new.symlink_to("precious"), os.mkfifo, lambda new: new.write_bytes(b"planted")):
        for name, program, words in ((FILE, "buildozer", add(":a")), (FILE, "buildozer", ["--journal", *add(":a")]), ("f", "buildifier", ["f"])):
            new = p.folder / f"{name}.bznew"
            make(new)
            os.chown(new, OTHER, OTHER, follow_symlinks=False)
            end = FAILED[program], b"", f"{name}: cannot write\n".encode()
            p.expect(f"{program} {words} in a sticky folder", p.ended(words, program, **how), end)
            new.unlink()
    found = files_in(p.folder)
    p.expect("files of a sticky folder", found, {FILE: FIRST, "precious": b"precious", "f": ODD})


def over(scene, *given, library=False, root=False):
    """A scene over what is given, which is not tried where it needs a library or root, and there is none."""

    def tried(p):
        if root and os.geteuid() != 0:
            SCENES.say(f"not run as root, so {scene.__name__.replace('_', ' ')} was not tried")
        elif p.library or not library:
            scene(p, *given)

    return tried


KEPT = {"": [], ", with journals": ["--journal"]}
AT_CALLS = {
    "an editor at each call": editor_saves, "between two commands": between_two_commands, "killed at each call": killed_at_each_call,
}  # fmt: skip
RACES = {f"many at once{name}": over(many_at_once, journal) for name, journal in KEPT.items()}
RACES |= {
    f"a second run at each call{mine}{' beside one without' if mine and not its else ''}": over(second_run, KEPT[mine], KEPT[its], library=True)
    for mine, its in (("", ""), (", with journals", ", with journals"), (", with journals", ""))
}
RACES |= {f"{what}{name}": over(scene, journal, library=True) for what, scene in AT_CALLS.items() for name, journal in KEPT.items()}
RACES |= {f"{how} at each call{name}": over(rights_change, how, journal, library=True, root=how == "chown") for how in RIGHTS for name, journal in KEPT.items()}
for name, program, journal in (("buildifier", "buildifier", []), ("buildozer", "buildozer", []), ("buildozer with journals", "buildozer", ["--journal"])):
    RACES[f"another's secret, {name}"] = over(anothers_secret, program, journal, library=True, root=True)
    RACES[f"a folder is exchanged, {name}"] = over(a_folder_is_exchanged, program, journal, library=True)
RACES["a pipe when it is opened"] = over(a_pipe_when_it_is_opened, library=True)
RACES |= named(planted_links, a_held_file, names_of_pipes_and_devices, bits)
RACES |= {name: over(scene, root=True) for name, scene in named(owners, sticky_folders).items()}


@contextlib.contextmanager
def both(*programs):
    with copies(*programs) as copied, preloaded("failing") as (library,):
        yield copied, library


SCENES = Scenes(__file__, RACES, both, in_folder(lambda given, folder: Place(*given, folder)))

if __name__ == "__main__":
    SCENES.main()
