#!/usr/bin/env python3
"""Runs the built programs where the system refuses them something, and looks at what they leave.

Outputs that are full, closed, or no longer read; inputs that are closed, or a folder; packages without an end; a disk that is full;
folders in which nobody may write; names that are no file's; links that go round, lead nowhere or elsewhere; and what is in the
way of the new file. Each run is compared with what the pages say must come: its status, its lines, and the bytes of all files after it.
Where the script runs as root the programs run as nobody, since rights are nothing to root.

Both programs pass over the signal of a pipe that nobody reads, and report it as an output that cannot be written. That of a file past
the limit of its size they leave to the system, which ends them by it: then the file is as it was. Where it is passed over, by
whoever starts them, it is reported as any other failure.

    tests/scenes/devices.py BUILDOZER BUILDIFIER
"""

import contextlib
import os
import resource
import shutil
import signal
import subprocess

from lib.folders import files_in, in_folder, put
from lib.lines import PACKAGE_HINT, TOO_LARGE
from lib.runs import PATIENCE, as_nobody, copies, ended, held_to
from lib.scenes import Scenes, Wrong, named
from lib.stopped_runs import EVEN, FAILED, FIXED, ODD

RULE = b'f(name="x")\n'
SET = b'f(\n    name = "x",\n    k = 1,\n)\n'
LONG = b"x=1\n" * 100
FIXED_LINE = FIXED[2]
EDIT = ["set k 1", "//:x"]
UNREAD = b"<stdin>: cannot open\n"
UNSHOWN = b"<stdout>: cannot write\n"
# the addresses that are enough to report of any input that it is too long
ENOUGH = 256 << 20
# the file that each program rewrites, and what it reports where that can't be
FORMAT = ("buildifier", ["f"], {"f": ODD}, {"f": EVEN})
CHANGE = ("buildozer", EDIT, {"BUILD": RULE}, {"BUILD": SET})
# what buildifier says of a name that is like none of a file, where what is there can't be opened
MAY_BE = ": if this is a directory, see buildifier-tree\n"
# addresses enough for a text at the limit and one byte, also while it grows, and too few for much more of a file without an end
ADDRESSES = 500_000_000


class Place(Wrong):
    """A folder in which both programs run, and what is wrong there."""

    def __init__(self, programs, folder):
        super().__init__()
        self.programs, self.folder = programs, folder

    def ended(self, program, words, redirect="", text=b"", **how):
        """The status and both outputs of a run, whose streams a shell may direct elsewhere."""
        command = ["sh", "-c", f'exec "$0" "$@" {redirect}', self.programs[program], *words]
        return ended(command, self.folder, input=text, **{**as_nobody(self.folder), **how})

    def leaves(self, program, words, wanted, after=None, **how):
        """Sees that a run ends so, with these files after it, and all others as they were."""
        files = {**files_in(self.folder), **(after or {})}
        self.expect(f"{program} {words} {how.get('redirect', '')}", self.ended(program, words, **how), wanted)
        self.expect(f"files after {program} {words} {how.get('redirect', '')}", files_in(self.folder), files)


# ---- streams


def a_full_output(p):
    """It is reported, and files are written all the same."""
    put(p.folder, {"BUILD": RULE})
    for redirect in (">/dev/full", ">&-"):
        p.leaves("buildifier", [], (3, b"", UNSHOWN), redirect=redirect, text=ODD)
        p.leaves("buildifier", ["--mode=check"], (3, b"", UNSHOWN), redirect=redirect, text=ODD)
        p.leaves("buildozer", ["--", "set k 1", "-:x"], (2, b"", UNSHOWN), redirect=redirect, text=RULE)
        p.leaves("buildozer", ["--stdout", *EDIT], (2, b"", UNSHOWN), redirect=redirect)
        p.leaves("buildozer", ["print name", *EDIT], (2, b"", UNSHOWN + FIXED_LINE), {"BUILD": SET}, redirect=redirect)
        put(p.folder, {"BUILD": RULE})
    # where nothing is to be shown nothing fails
    p.leaves("buildozer", EDIT, FIXED, {"BUILD": SET}, redirect=">/dev/full")


def an_input_that_cannot_be_read(p):
    put(p.folder, {"BUILD": RULE, "d/f": ODD})
    for redirect in ("<&-", "<d", "<."):
        p.leaves("buildifier", [], (3, b"", UNREAD), redirect=redirect)
        p.leaves("buildozer", ["--", "delete", "-:x"], (2, b"", UNREAD), redirect=redirect)
        p.leaves("buildozer", ["-k", "--", "set k 1", "-:x", "//:x"], (2, b"", UNREAD + FIXED_LINE), {"BUILD": SET}, redirect=redirect)
        put(p.folder, {"BUILD": RULE})
        p.leaves("buildozer", ["-f", "-"], (1, b"", UNREAD), redirect=redirect)
    # who reads no input does not look at it
    p.leaves("buildozer", EDIT, FIXED, {"BUILD": SET}, redirect="<&-")


def closed_errors(p):
    """What can't be reported changes nothing: not the status, and no file that takes the number of the closed stream."""
    for redirect in ("2>&-", "2>/dev/full", "<&- 2>&-", "<&- >&- 2>&-", ">&- 2>&-"):
        put(p.folder, {"BUILD": RULE, "f": ODD, "g": b"x(\n"})
        p.leaves("buildifier", ["g", "f", "none"], (3, b"", b""), {"f": EVEN}, redirect=redirect)
        p.leaves("buildozer", ["-k", "delete nothing", *EDIT], (1, b"", b""), redirect=redirect)
        p.leaves("buildozer", ["-k", "rename a b", *EDIT], (2, b"", b""), {"BUILD": SET}, redirect=redirect)


def a_reader_that_goes(p):
    """A pipe that nobody reads any more is an output that can't be written, and no signal."""
    for program, words, text in ("buildifier", [], LONG), ("buildozer", ["--", "new f z", "-:__pkg__"], LONG):
        how = {"cwd": p.folder, "stdin": subprocess.PIPE, "stdout": subprocess.PIPE, "stderr": subprocess.PIPE}
        with subprocess.Popen([p.programs[program], *words], **how) as run:
            run.stdout.close()
            # a program that is gone already takes no input
            with contextlib.suppress(BrokenPipeError):
                run.stdin.write(text)
                run.stdin.close()
            told_lines = run.stderr.read()
        p.expect(f"{program} without a reader", (run.returncode, told_lines), (FAILED[program], UNSHOWN))


def packages_of_any_length(p):
    """No more is read of one than one byte past the limit of a text: it is reported as too large, and memory is not refused."""
    (p.folder / "BUILD").touch()
    os.truncate(p.folder / "BUILD", 1 << 40)
    for words in (EDIT, ["--stdout", *EDIT], ["--journal", *EDIT]):
        p.expect(f"{words}", p.ended("buildozer", words, preexec_fn=held_to(resource.RLIMIT_AS, ADDRESSES)), (2, b"", b"BUILD: TooLarge\n" + TOO_LARGE))
    (p.folder / "BUILD.bazel").symlink_to("BUILD")
    p.expect("a link", p.ended("buildozer", EDIT, preexec_fn=held_to(resource.RLIMIT_AS, ADDRESSES)), (2, b"", b"BUILD.bazel: TooLarge\n" + TOO_LARGE))
    for mode in ("check", "print_if_changed", "fix"):
        left = p.ended("buildifier", [f"--mode={mode}", "BUILD"], preexec_fn=held_to(resource.RLIMIT_AS, ENOUGH))
        p.expect(f"buildifier --mode={mode}", left, (1, b"", b"BUILD: TooLarge\n" + TOO_LARGE))
    p.expect("its length", (p.folder / "BUILD").stat().st_size, 1 << 40)


# ---- limits of the size of files, and a disk that is full


def a_limit_of_files(p):
    """Where its signal is passed over it is reported; where it isn't the program ends by it. The file stays either way."""
    for program, words, before, after in (FORMAT, CHANGE):
        (name,) = before
        for count in range(0, len(after[name])):
            put(p.folder, before)
            fault = (FAILED[program], b"", f"{name}: cannot write\n".encode())
            left = p.ended(program, words, preexec_fn=held_to(resource.RLIMIT_FSIZE, count), restore_signals=False)
            p.expect(f"{program} with {count} bytes", left, fault)
            p.expect(f"{name} with {count} bytes", files_in(p.folder)[name], before[name])
        status = p.ended(program, words, preexec_fn=held_to(resource.RLIMIT_FSIZE, 2))[0]
        p.expect(f"{program} where the signal is let through", status in (-signal.SIGXFSZ, FAILED[program]), True)
        p.expect(f"{name} where the signal is let through", files_in(p.folder)[name], before[name])
        # what was left of it is written over
        put(p.folder, before)
        p.ended(program, words)
        p.expect("files after a further run", {**files_in(p.folder), **after}, files_in(p.folder))


# In a file system of two pages, of which one is the file's, and one is taken by another file but for what is left of it.
FULL = """mount -t tmpfs -o size=8k,nr_inodes=6 none "$1" && cd "$1" || exit 77
cat > "$2" && head -c 4096 /dev/zero > other && shift 2; name=$1; shift
"$@" 2> /dev/null; echo "status $?"; cat "$name"; exit 0
"""


def a_full_disk(p):
    """A small file system in memory, which goes with the run; where none can be made that is said."""
    for program, words, before, _ in (FORMAT, CHANGE):
        ((name, text),) = before.items()
        (p.folder / program).mkdir()
        command = ["unshare", "-rm", "sh", "-c", FULL, "sh", p.folder / program, name, name, p.programs[program], *words]
        run = subprocess.run(command, input=text, capture_output=True, timeout=PATIENCE) if shutil.which("unshare") else None
        if run is None or run.returncode in (1, 77):
            SCENES.say("no small file system could be made, so none was filled")
            return
        p.expect(f"{program} on a full disk", run.stdout, b"status %d\n%s" % (FAILED[program], text))


# ---- names


def a_folder_that_nobody_may_write(p):
    put(p.folder, {"a/f": ODD, "a/BUILD": RULE})
    as_nobody(p.folder)
    (p.folder / "a").chmod(0o555)
    p.leaves("buildifier", ["a/f"], (3, b"", b"a/f: cannot write\n"))
    p.leaves("buildozer", ["set k 1", "//a:x"], (2, b"", b"a/BUILD: cannot write\n"))
    (p.folder / "a").chmod(0o755)


def names_that_are_no_files(p):
    """Each is reported, in the order of the words, where it may be a directory by a line more, and the file beside them is written."""
    put(p.folder, {"f": ODD, "d/g": ODD})
    (p.folder / "itself").symlink_to("itself")
    (p.folder / "one").symlink_to("other")
    (p.folder / "other").symlink_to("one")
    (p.folder / "nowhere").symlink_to("none")
    names = ["d", "d/", ".", "none", "none/f", "f/g", "f/", "itself", "one", "nowhere", "", "n" * 300, "d/" * 3000, "a\nb", "\u00e9"]
    told = {name: f"{name}: names a directory: see buildifier-tree\n" for name in names if name.endswith("/") or name == "."}
    told |= {name: name + MAY_BE for name in ("d", "f/g", "itself", "one", "n" * 300)}
    lines = "".join(f"{name}: cannot open\n{told.get(name, '')}" for name in names).replace("a\nb", "a\\nb").encode()
    p.leaves("buildifier", [*names, "f"], (3, b"", lines), {"f": EVEN})
    p.leaves("buildifier", ["/dev/null"], (3, b"", f"/dev/null: cannot open\n/dev/null{MAY_BE}".encode()))
    p.leaves("buildozer", ["-f", "d"], (1, b"", b"d: cannot open\n"))
    p.leaves("buildozer", ["-f", "itself"], (1, b"", b"itself: cannot open\n"))
    p.leaves("buildozer", ["-f", "/dev/null"], (1, b"", b"/dev/null: no operands\n"))


def a_file_without_an_end(p):
    """By its name it is not opened, and the file beside it is written; of standard input no more is read than a text may have and one
    byte by which that is known."""
    (p.folder / "endless").symlink_to("/dev/zero")
    put(p.folder, {"f": ODD})
    lines = "".join(f"{name}: cannot open\n{name}{MAY_BE}" for name in ("endless", "/dev/zero")).encode()
    for mode in ("check", "print_if_changed", "fix"):
        shown = {"check": b"f # reformat\n", "print_if_changed": EVEN, "fix": b""}[mode]
        after = {"f": EVEN} if mode == "fix" else {}
        p.leaves("buildifier", [f"--mode={mode}", "endless", "/dev/zero", "f"], (3, shown, lines), after, preexec_fn=held_to(resource.RLIMIT_AS, ENOUGH))
    p.leaves("buildifier", [], (1, b"", b"<stdin>: TooLarge\n" + TOO_LARGE), redirect="</dev/zero", preexec_fn=held_to(resource.RLIMIT_AS, ENOUGH))


def lines_without_an_end(p):
    """Of a file of lines, whatever it is, no more is read than a text may have and one byte by which that is known; nothing is requested."""
    put(p.folder, {"BUILD": RULE})
    for words in (["-f", "/dev/zero"], ["--journal", "-k", "-f", "/dev/zero"]):
        p.leaves("buildozer", words, (1, b"", b"/dev/zero: TooLarge\n" + TOO_LARGE), preexec_fn=held_to(resource.RLIMIT_AS, ADDRESSES))
    p.leaves("buildozer", ["-f", "-"], (1, b"", b"<stdin>: TooLarge\n" + TOO_LARGE), redirect="</dev/zero", preexec_fn=held_to(resource.RLIMIT_AS, ADDRESSES))


def packages_that_are_no_files(p):
    put(p.folder, {"BUILD": RULE, "f": ODD, "d/BUILD.bazel/g": ODD, "d/BUILD": RULE, "e/BUILD/g": ODD})
    (p.folder / "l").mkdir()
    (p.folder / "l/BUILD.bazel").symlink_to("BUILD.bazel")
    (p.folder / "m").symlink_to("m")
    lines = b"d/BUILD.bazel: cannot open\ne/BUILD: cannot open\nl/BUILD.bazel: cannot open\nl/BUILD: cannot open\n"
    status, out, err = p.ended("buildozer", ["-k", "set k 1", "//d:x", "//e:x", "//l:x", "//:x"])
    # a missing BUILD after a link that goes round may be reported too, or not: the link was
    missing = b"l/BUILD: cannot open\n"
    told_lines = err.replace(missing + PACKAGE_HINT, b"").replace(missing, b"")
    wanted = lines.replace(missing, b"") + b"fixed d/BUILD\n" + FIXED_LINE
    p.expect("packages that are no files", (status, out, told_lines), (2, b"", wanted))
    for target in ("//m:x", f"//{'n' * 300}:x"):
        status, out, err = p.ended("buildozer", ["delete", target])
        package = target[2:-2]
        p.expect(target, (status, out, err.endswith(f"{package}/BUILD: cannot open\n".encode())), (2, b"", True))


def what_stands_in_the_way(p):
    """A new file's name that is a folder's is reported; one that is a link goes, and what the link names stays."""
    for program, words, before, after in (FORMAT, CHANGE):
        (name,) = before
        new = p.folder / f"{name}.bznew"
        put(p.folder, {**before, "precious": b"precious"})
        new.mkdir()
        p.leaves(program, words, (FAILED[program], b"", f"{name}: cannot write\n".encode()))
        new.rmdir()
        for target in ("precious", "none", new.name, name):
            put(p.folder, before)
            new.symlink_to(target)
            told_line = b"fixed BUILD\n" if program == "buildozer" else b""
            p.expect(f"{program} beside a link to {target}", p.ended(program, words), (0, b"", told_line))
            p.expect(f"files beside a link to {target}", {**files_in(p.folder), **after, "precious": b"precious"}, files_in(p.folder))
            p.expect("the link", new.is_symlink(), False)


def links_to_files(p):
    """A link becomes a file; a file of two names is one of its own then, and the other name keeps the bytes."""
    put(p.folder, {"f": ODD, "two": ODD})
    (p.folder / "soft").symlink_to("f")
    os.link(p.folder / "two", p.folder / "hard")
    p.leaves("buildifier", ["soft", "hard"], (0, b"", b""), {"soft": EVEN, "hard": EVEN})
    p.expect("a link that became a file", (p.folder / "soft").is_symlink(), False)
    # two names of one file in a run: the second one is written by its own new file
    (p.folder / "again").symlink_to("f")
    p.leaves("buildifier", ["again", "f"], (0, b"", b""), {"again": EVEN, "f": EVEN})


def files_of_odd_rights(p):
    """Neither who may not read a file nor who may not write it loses it; the bits stay."""
    put(p.folder, {"unread": ODD, "unwritten": ODD, "BUILD": RULE})
    as_nobody(p.folder)
    (p.folder / "unread").chmod(0)
    (p.folder / "unwritten").chmod(0o444)
    (p.folder / "BUILD").chmod(0o400)
    p.expect("rights", p.ended("buildifier", ["unread", "unwritten"]), (3, b"", f"unread: cannot open\nunread{MAY_BE}".encode()))
    p.expect("rights", p.ended("buildozer", EDIT), FIXED)
    modes = {name: (p.folder / name).stat().st_mode & 0o7777 for name in ("unread", "unwritten", "BUILD")}
    p.expect("bits", modes, {"unread": 0, "unwritten": 0o444, "BUILD": 0o400})


DEVICES = named(
    a_full_output, an_input_that_cannot_be_read, closed_errors, a_reader_that_goes, packages_of_any_length, a_limit_of_files, a_full_disk,
    a_folder_that_nobody_may_write, names_that_are_no_files, a_file_without_an_end, lines_without_an_end, packages_that_are_no_files, what_stands_in_the_way, links_to_files,
    files_of_odd_rights,
)  # fmt: skip
SCENES = Scenes(__file__, DEVICES, copies, in_folder(Place))

if __name__ == "__main__":
    SCENES.main()
