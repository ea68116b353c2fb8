#!/usr/bin/env python3
"""Runs the commands of contrib/tree/ with the built programs over made trees, and looks at what they leave there.

A tree has packages with odd texts, some with names that have spaces, newlines and other signs, links, workspaces within, folders that are ignored,
and texts that are refused. What one process of the program makes of a file is what must come of it. Runs are stopped midway by each signal and run
again, two are under way at once, and edits are taken back, byte for byte.

    [HOSTILE=whole] tests/scenes/whole_trees.py BUILDOZER BUILDIFIER
"""
import ast
import contextlib
import os
import pathlib
import pty
import re
import shlex
import shutil
import signal
import subprocess
import sys
import tempfile
import time

from lib.lines import PACKAGE_HINT
from lib.odd_texts import TEXTS
from lib.runs import PATIENCE
from lib.scenes import WHOLE, Scenes, named
from lib.trees import EVEN, FEW, ODD, SIGNALS, TREE, WAITING, alive, made, place, with_git

COMMANDS = ("buildifier-tree", "buildozer-tree")
# how many packages a tree has
PACKAGES = 3000 if WHOLE else 600
ODD_BZL, EVEN_BZL = b"def f(x):\n  return x\n", b"def f(x):\n    return x\n"
REFUSED = b"f(\n"
ODD_NAMES = ["with space", "new\nline", "co:lon", "# reformat", "\u00fcml\u00e4ut", "bar|bar", " front", "-dash"]


def formatted(place, files):
    """The files as one process of buildifier leaves them."""
    with tempfile.TemporaryDirectory(dir=place.folder.parent) as folder:
        copy = {str(number): name for number, name in enumerate(files)}
        for number, name in copy.items():
            pathlib.Path(folder, number).write_bytes(files[name])
        subprocess.run([place.programs["buildifier"], "--type=build", *copy], cwd=folder, capture_output=True, timeout=PATIENCE)
        return {name: pathlib.Path(folder, number).read_bytes() for number, name in copy.items()}


# ---- buildifier-tree


def all_files_are_formatted(place):
    """Those of each name, with odd names too, and of workspaces within; what is ignored, links and other files stay."""
    kinds = ["WORKSPACE", "WORKSPACE.bazel", "WORKSPACE.bzlmod", "MODULE.bazel", "a.MODULE.bazel", "REPO.bazel", "z.BUILD", "z.BUILD.bazel"]
    files = {**made(PACKAGES), **{f"kinds/{name}": ODD for name in kinds}, **{f"{name}/BUILD": ODD for name in ODD_NAMES}, "in/WORKSPACE": ODD, "in/a/BUILD": ODD}
    stay = {"ignored/BUILD": ODD, "named/BUILD": ODD, "d.bzl": ODD_BZL, "BUILDER": ODD, "a.txt": ODD, "even/BUILD": EVEN, "in/third/BUILD": ODD,
            ".gitignore": b"ignored/\nignored.BUILD\n*.journal\n", "ignored.BUILD": ODD, ".bazelignore": b"# c\nnamed\n", "in/.bazelignore": b"third/\n", "MODULE.bazel": EVEN}  # fmt: skip
    place.put({**files, **stay, "outer/BUILD": ODD})
    place.put({os.fsdecode(b"bytes\xff/BUILD"): ODD})
    place.git("init", "-q")
    place.git("add", "p1")
    links = {"link": "p1", "l.BUILD": "outer/BUILD"}
    for name, to in links.items():
        (place.folder / name).symlink_to(to)
    before = place.files()
    after = {**before, **formatted(place, {**files, "outer/BUILD": ODD})}
    named = "bytes\\xff/BUILD: the name is not UTF-8"
    status, out, err = place.run("buildifier-tree", "--mode=check")
    lines = b"".join(os.fsencode(name) + b" # reformat\n" for name in sorted({**files, "outer/BUILD": ODD}))
    place.expect("check", (status, err[:2]), (3, [named, f"{len(files) + 1:,} files would be reformatted, 2 already formatted, 1 refused"]))
    place.expect("what check prints", out, lines)
    place.wants_files("files after check", before)
    place.expect("fix", place.run("buildifier-tree")[:2], (3, b""))
    place.wants_files("files", after)
    place.expect("again", place.run("buildifier-tree")[2][1], f"{len(files) + 3:,} files left unchanged, 1 refused")
    place.expect("what is named", place.run("buildifier-tree", "ignored", "named", "a.txt"), (0, b"", ["3 files reformatted"]))
    place.expect("with --bzl", place.run("buildifier-tree", "--bzl", "--quiet", "."), (3, b"", [named]))
    place.wants_files("files at last", {**after, **dict.fromkeys(["ignored/BUILD", "named/BUILD", "a.txt"], EVEN), "d.bzl": EVEN_BZL})


def paths_and_usage(place):
    """Paths that overlap, are not there, or are links; options; and where nothing is found."""
    place.put({"a/BUILD": ODD, "a/b/BUILD": ODD, "c/BUILD": EVEN, "e/none.txt": b""})
    (place.folder / "l").symlink_to("a")
    place.expect("once each", place.run("buildifier-tree", "--mode=check", "a/b", "./a", "a/b/BUILD", "l"),
                (4, b"a/BUILD # reformat\na/b/BUILD # reformat\n".replace(b"a/BUILD", b"./a/BUILD", 1), ["2 files would be reformatted"]))  # fmt: skip
    again = "to go on with just these: buildifier-tree --mode=check 'no ne'"
    place.expect("missing", place.run("buildifier-tree", "--mode=check", "no ne", "c"), (3, b"", ["no ne: cannot open", "1 file already formatted, 1 refused", again]))
    place.expect("nothing", place.run("buildifier-tree", "e"), (0, b"", ["no BUILD files were found"]))
    place.expect("from a file", place.run("buildifier-tree", "--from=-", "--quiet", text=b"a/BUILD\0a/b\0"), (0, b"", []))
    place.expect("files", [place.files()[name] for name in ("a/BUILD", "a/b/BUILD")], [EVEN, EVEN])
    see = "buildifier-tree: see buildifier-tree --help"
    for words, line in ((["--mode=list"], "no mode: list; there are fix, check, diff"), (["--type", "x"], "no type: x; there are auto, build, bzl"),
                        (["-mode=fix"], "there is no option -m: did you mean --mode?"), (["--diff-from=HEAD"], "--diff-from: . is in no repository of git"),
                        (["--from"], "--from needs a value"), (["--processes=0"], "--processes is a number from 1, and not '0'")):  # fmt: skip
        place.expect(f"{words}", place.run("buildifier-tree", *words), (2, b"", [f"buildifier-tree: {line}", see]))
    place.expect("--help", place.run("buildifier-tree", "--help")[0], 0)


def refusals_are_sorted(place):
    """By the names of the files, each with the lines below its own; the command line that goes on takes just these."""
    bad = [f"p{i}/bad.BUILD" for i in range(30)]
    place.put({**made(FEW), **dict.fromkeys(bad, REFUSED)})
    place.git("init", "-q")
    status, out, err = place.run("buildifier-tree")
    place.expect("status", (status, out), (1, b""))
    place.expect("refusals", [line for line in err if re.match(r"p\d+/", line)], [f"{name}:2:1: Unexpected" for name in sorted(bad)])
    place.expect("summary", f"{FEW} files reformatted, 30 refused" in err, True)
    place.expect("how to go on", err[-1], "to go on with just these: buildifier-tree --from=.git/kinduzar/rest")
    place.put(dict.fromkeys(bad[:28], ODD))
    words = shlex.split(err[-1].partition(": ")[2])
    status, _, err = place.run(*words)
    place.expect("going on", (status, err[-2:]), (1, ["28 files reformatted, 2 refused", "to go on with just these: buildifier-tree p28/bad.BUILD p29/bad.BUILD"]))


def differences(place):
    """What `diff` prints makes of the files what formatting does, also without a newline at the end and with odd line ends."""
    files = {"a/BUILD": ODD + b"# c\n" * 20 + ODD, "b c/BUILD": b"x=1", "d/BUILD": b"x=1\r\ny=2\r\n", "e/BUILD": EVEN, "f/BUILD": b"# \xc3\xbc\nx=1\n"}
    place.put(files)
    status, out, err = place.run("buildifier-tree", "--mode=diff")
    place.expect("status", (status, err), (4, ["4 files would be reformatted, 1 already formatted"]))
    place.expect("headers", re.findall(rb"(?m)^--- (.*)$", out), [b"a/BUILD", b"b c/BUILD\t", b"d/BUILD", b"f/BUILD"])
    place.wants_files("files", files)
    if shutil.which("patch"):
        subprocess.run(["patch", "-p0", "-s", "--binary"], cwd=place.folder, input=out, check=True, timeout=PATIENCE)
        place.wants_files("patched", formatted(place, files))
    else:
        SCENES.say("not run with patch, which is not there")


def only_what_changed(place):
    """Since a revision, or since a branch left another one; new files are taken, and those that git ignores are not."""
    place.put({**made(FEW), ".gitignore": b"out\n", "here/BUILD": EVEN})
    place.git("init", "-q")
    place.git("add", ".")
    place.git("commit", "-qm", "one")
    place.put({"here/BUILD": ODD, "new/BUILD": ODD, "out/BUILD": ODD})
    place.expect("changed", place.run("buildifier-tree", "--diff-from=HEAD", "--mode=check")[:2], (4, b"here/BUILD # reformat\nnew/BUILD # reformat\n"))
    place.expect("below", place.run("buildifier-tree", "--diff-from=HEAD", "--mode=check", here="new")[:2], (4, b"BUILD # reformat\n"))
    place.expect("no revision", place.run("buildifier-tree", "--diff-from=none")[0], 3)
    place.git("checkout", "-qb", "mine")
    place.git("add", "here")
    place.git("commit", "-qm", "two")
    place.expect("a branch", place.run("buildifier-tree", "--diff-from=main...HEAD", "--mode=check", "here", "p1")[:2], (4, b"here/BUILD # reformat\n"))


def a_process_that_is_killed(place):
    """The other files of its batch are formatted, and it is named."""
    place.put({**made(FEW), "p1/kill.BUILD": ODD})
    place.replace("buildifier", f'#!/bin/sh\ncase "$*" in *kill.BUILD*) kill -9 $$ ;; esac\nexec {place.programs["buildifier"]} "$@"\n')
    again = "to go on with just these: buildifier-tree p1/kill.BUILD"
    lines = ["p1/kill.BUILD: buildifier ended by SIGKILL", f"{FEW} files reformatted, 1 refused", again]
    place.expect("run", place.run("buildifier-tree"), (3, b"", lines))


def stopped(place, command, words, program, number):
    """Runs a command with a slow program, stops it once it has changed a file, and gives its status and the lines of standard error."""
    pids, before = place.slow(program, 0.1), place.files()
    run = place.start(command, *words)
    until = time.monotonic() + PATIENCE
    while place.files() == before and time.monotonic() < until:
        time.sleep(0.01)
    run.send_signal(number)
    err = run.communicate(timeout=PATIENCE)[1]
    # what is killed itself leaves its processes, which end with the files that they have
    while number == signal.SIGKILL and alive(pids) and time.monotonic() < until:
        time.sleep(0.01)
    place.expect(f"{number.name}: processes", alive(pids), [])
    place.fast(program)
    return run.returncode, err.decode(errors="replace").splitlines()


def formats_stopped_and_run_again(place):
    """By each signal: every file is whole, nothing is left beside them, and a second run finishes."""
    files = made(PACKAGES)
    after = formatted(place, files)
    for number in SIGNALS:
        place.put(files)
        status, err = stopped(place, "buildifier-tree", ["--processes=2"], "buildifier", number)
        place.expect(f"{number.name}: status", (status, err[-1:]), (-number, [f"stopped by {number.name}; the same command goes on"]))
        now = place.files()
        place.expect(f"{number.name}: whole", [name for name in now if now[name] not in (files.get(name), after.get(name))], [])
        count = sum(now[name] == after[name] for name in after)
        place.expect(f"{number.name}: midway", 0 < count < len(files), True)
        status, _, err = place.run("buildifier-tree")
        place.expect(f"{number.name}: again", (status, err), (0, [f"{len(files) - count:,} files reformatted, {count:,} left unchanged"]))
        place.wants_files(f"{number.name}: files", after)
        place.expect(f"{number.name}: left beside them", list(place.folder.rglob("*.bznew")), [])


def slow_processes_are_ended(place):
    """Those that have not finished within the time for that; a signal that is passed over stays so."""
    place.put(made(FEW))
    pids = place.slow("buildifier", 60)
    run = place.start("buildifier-tree")
    while not pids.exists() or len(pids.read_text().split()) < 3:
        time.sleep(0.02)
    before = time.monotonic()
    run.send_signal(signal.SIGINT)
    run.communicate(timeout=PATIENCE)
    place.expect("in time", (run.returncode, time.monotonic() - before < 10), (-signal.SIGINT, True))
    place.expect("processes", alive(pids), [])
    place.slow("buildifier", 0.3)
    run = place.start("buildifier-tree", preexec_fn=lambda: signal.signal(signal.SIGHUP, signal.SIG_IGN))
    time.sleep(0.5)
    run.send_signal(signal.SIGHUP)
    place.expect("nohup", (run.communicate(timeout=PATIENCE)[0], run.returncode), (b"", 0))


def two_formats_at_once(place):
    """Each ends well or names the file that the other one held; every file is whole, and nothing is left beside them."""
    files = made(PACKAGES)
    place.put(files)
    after = formatted(place, files)
    runs = [place.start("buildifier-tree") for _ in range(2)]
    for run in runs:
        _, err = run.communicate(timeout=PATIENCE)
        other = [line for line in err.decode().splitlines() if not re.fullmatch(r".*: cannot write|.*(?:reformatted|unchanged|refused).*|to go on .*", line)]
        place.expect("a run", (run.returncode in (0, 3), other), (True, []))
    place.expect("a third one", place.run("buildifier-tree", "--quiet"), (0, b"", []))
    place.expect("left beside them", list(place.folder.rglob("*.bznew")), [])
    place.wants_files("files", after)


def on_a_terminal(place):
    """There are a bar, which is gone at the end, and colours; without one there are none."""
    place.put(made(FEW))
    for words, signs in ((["--mode=diff"], [b"\x1b[31m-", b"\x1b[32m+", b"\x1b[36m@@"]), ([], [f"{FEW}/{FEW} files".encode()])):
        end, other = pty.openpty()
        place.environment["TERM"] = "xterm"
        with place.start("buildifier-tree", *words, stdout=other, stderr=other) as run:
            os.close(other)
            shown = b""
            with contextlib.suppress(OSError):
                while piece := os.read(end, 65536):
                    shown += piece
            run.wait(timeout=PATIENCE)
        os.close(end)
        place.expect(f"signs of {words}", [sign for sign in signs if sign not in shown], [])
        place.expect("the last line", b"reformatted" in shown.rstrip().rpartition(b"\n")[2].rpartition(b"\x1b[K")[2], True)
    place.expect("no terminal", b"\x1b" in place.run("buildifier-tree", "--mode=diff")[1], False)


def the_bar_is_below_lines(place):
    """After each line that is written while the run goes on the bar is there again."""
    place.put({"MODULE.bazel": b"", **made(FEW)})
    place.slow("buildozer", 0.05)
    end, other = pty.openpty()
    place.environment["TERM"] = "xterm"
    with place.start("buildozer-tree", "--processes=1", "set size small", "//...:all", stderr=other) as run:
        os.close(other)
        shown = b""
        with contextlib.suppress(OSError):
            while piece := os.read(end, 65536):
                shown += piece
        run.wait(timeout=PATIENCE)
    os.close(end)
    bars = re.findall(rb"fixed [^\r\n]*\r\n[^\r\n]*\d+/60 packages", shown)
    place.expect("bars", (run.returncode, len(bars) > FEW // 3, f"{FEW} files fixed".encode() in shown.rpartition(b"\x1b[K")[2]), (0, True, True))


def a_closed_output(place):
    """What cannot be written to it is told, and ends the run with 3."""
    place.put(made(FEW))
    with open("/dev/full", "wb") as full:
        run = place.start("buildifier-tree", "--mode=check", stdout=full)
        err = run.communicate(timeout=PATIENCE)[1].decode().splitlines()
    place.expect("full", (run.returncode, err), (3, ["<stdout>: cannot write", f"{FEW} files would be reformatted"]))


# ---- buildozer-tree


def edited(place, files, commands):
    """The files as one process of buildozer leaves them, which has a target for each."""
    with tempfile.TemporaryDirectory(dir=place.folder.parent) as folder:
        for name, text in files.items():
            file = pathlib.Path(folder, name)
            file.parent.mkdir(parents=True, exist_ok=True)
            file.write_bytes(text)
        targets = [f"//{os.path.dirname(name)}:all" for name in files]
        subprocess.run([place.programs["buildozer"], "--quiet", *commands, *targets], cwd=folder, timeout=PATIENCE, check=True)
        return {name: pathlib.Path(folder, name).read_bytes() for name in files}


EDIT = ["set testonly True", "add deps //lib:b"]
# so that nothing but refusals is written
QUIET = ("--quiet", "--quiet")


def all_packages_are_edited(place):
    """As by one process, in order; a second run changes nothing; what is ignored, links, and workspaces within stay."""
    files = made(PACKAGES)
    stay = {"MODULE.bazel": b"", ".gitignore": b"ignored\n", "ignored/BUILD": ODD, ".bazelignore": b"named\n", "named/BUILD": ODD, "p1/in/REPO.bazel": b"", "p1/in/a/BUILD": ODD,
            "empty/BUILD": b"", "p1/z.BUILD": ODD}  # fmt: skip
    place.put({**files, **stay})
    place.git("init", "-q")
    (place.folder / "linked").mkdir()
    (place.folder / "linked/BUILD").symlink_to("../p1/q1/BUILD")
    (place.folder / "loop").symlink_to("..")
    before = place.files()
    status, out, err = place.run("buildozer-tree", *EDIT, "//...:all")
    names = sorted(files, key=os.path.dirname)
    note = "passed over 1 package whose BUILD file is a link: linked"
    place.expect("edit", (status, out, err), (0, b"", [*(f"fixed {name}" for name in names), note, f"{len(files):,} files fixed, 1 left unchanged"]))
    place.wants_files("files", {**before, **edited(place, files, EDIT)})
    place.expect("again", place.run("buildozer-tree", *EDIT, "//...:all"), (3, b"", [note, f"{len(files) + 1:,} files left unchanged"]))
    status, out, err = place.run("buildozer-tree", "print name", "//p1/...:all")
    place.expect("printed", (status, out, err), (3, b"".join(b"x%d\n" % i for i in sorted((i for i in range(PACKAGES) if i % 40 == 1), key=str)), []))


TARGETS = [
    (["//...:all"], "root a ab r c r"), (["//a/...:all"], "a ab r c"), (["//a/...:*"], "a ab r c"), (["//...:%g"], "c"), (["//a/...:r"], "r"),
    (["//a/..."], "a c"), (["//..."], "a c"), (["//...:__pkg__"], ""), (["//a/...:%2"], "ab r"), (["//a:all", "//...:r", "//a:a"], "a ab r r a"),
    (["--types=g", "//...:all"], "c"), (["--types=g,f", "//a/...:all"], "a r c"), (["--types=f", "//...:%g"], ""), (["--types=f", "//...:r", "//a/c:c"], "r r"),
]  # fmt: skip


def targets_mean_packages(place):
    """Each form of a target, from the root and from a package."""
    texts = {"BUILD": b'f(name="root")\n', "a/BUILD": b'f(name="a")\nh(name="ab")\n', "a/b/BUILD": b'# c\nf(name="r")\n', "a/c/BUILD.bazel": b'g(name="c")\n', "d/BUILD": b'f(name="r")\n'}
    place.put({"WORKSPACE": b"", **texts})
    for words, names in TARGETS:
        status, out, err = place.run("buildozer-tree", "print name", *words)
        found = "" if not out and status == 2 else " ".join(sorted(out.decode().split()))
        place.expect(f"{words}", found, " ".join(sorted(names.split())))
    for here, word, names in (("a", ":all", "a ab"), ("a", "b:r", "r"), ("a", "...:r", "r"), ("a", "...", "a c"), ("a/b", ":all", "r"), ("a", "b/...:all", "r"), ("", "a/...:%f", "a r")):
        found = place.run("buildozer-tree", "print name", word, here=here or ".")[1].decode().split()
        place.expect(f"{word} in {here}", sorted(found), sorted(names.split()))
    place.expect("none", place.run("buildozer-tree", "delete", "//none/...:all"), (2, b"", ["//none/...:all: there is no package", "1 file refused"]))
    place.expect("no rule", place.run("buildozer-tree", "delete", "//...:none")[2][:1], ["//...:none: no package has such a rule"])
    absent = place.run("buildozer-tree", "-k", "print name", "//z:all", "//d:r", "//m:all")
    hint = PACKAGE_HINT.decode().strip()
    place.expect("absent", (absent[0], absent[1], absent[2][:4]), (2, b"r\n", ["m/BUILD: cannot open", hint, "z/BUILD: cannot open", hint]))
    usage = place.run("buildozer-tree", "delet", "//...:all")
    place.expect("usage", (usage[0], usage[2][:2]), (1, ["buildozer: delet: Unknown (31)", "buildozer: did you mean 'delete'?"]))
    for words in (["delete"], ["//...:all"], ["delete", "//a//b:x"], ["--stdout", "--journal", "delete", "//a:a"], ["-x"], ["delete", "-f"], ["undo"], ["delete", "--", "-:all"]):
        place.expect(f"{words}", place.run("buildozer-tree", *words)[0], 1)
    place.wants_files("files", {"WORKSPACE": b"", **texts})


def targets_mean_files(place):
    """A file in the place of a package is edited, shown and taken back as a package is; that of a package is the package."""
    texts = {"MODULE.bazel": ODD, "a/BUILD": ODD, "b/BUILD": ODD, "b/BUILD.bazel": ODD}
    place.put(texts)
    place.git("init", "-q")
    words = ["set size small", "//MODULE.bazel:x", "//a/BUILD:x", "//a:x"]
    shown = place.run("buildozer-tree", "--stdout", *words)[1]
    place.expect("shown", [shown.count(b"==> %s <==" % name) for name in (b"MODULE.bazel", b"a/BUILD")], [1, 1])
    place.expect("edit", place.run("buildozer-tree", "--journal", *words)[2][:3], ["fixed MODULE.bazel", "fixed a/BUILD", "2 files fixed"])
    place.expect("undo", place.run("buildozer-tree", "undo")[2][:2], ["fixed MODULE.bazel", "fixed a/BUILD"])
    place.expect("texts", {name: place.files()[name] for name in texts}, texts)
    beside = ["b/BUILD: cannot open", "buildozer: the file of //b is its BUILD.bazel", "1 file refused"]
    for flags in ([], ["--diff"]):
        place.expect(f"beside {flags}", place.run("buildozer-tree", *flags, "delete", "//b/BUILD:x")[2][:3], beside)


def names_that_no_target_has(place):
    """They are told, and the others are edited."""
    place.put({"a/BUILD": ODD, **{f"{name}/BUILD": ODD for name in ODD_NAMES}})
    place.put({os.fsdecode(b"bytes\xff/BUILD"): ODD})
    status, _, err = place.run("buildozer-tree", *QUIET, "set size small", "//...:all")
    unnamed = [name for name in ODD_NAMES if any(sign in name for sign in " :|\n#")]
    place.expect("status", (status, sum("no target can name" in line for line in err)), (2, len(unnamed) + 1))
    files = place.files()
    place.expect("edited", sorted(name for name in files if b"size" in files[name]), sorted(["a/BUILD", "\u00fcml\u00e4ut/BUILD", "-dash/BUILD"]))


def lines_in_their_order(place):
    """A file of lines: what they do to a package is done in their order, and what is wrong in one is told with its place."""
    place.put({"MODULE.bazel": b"", **made(FEW)})
    place.put({"a/lines": b"\xef\xbb\xbfset size small|//...:all\r\n# no line\n\nset size large|//p1/...:all\nnew g after|//p1/...:all\nset kind h|//...:%g\n"})
    place.expect("run", place.run("buildozer-tree", *QUIET, "-f", "lines", here="a"), (0, b"", []))
    out = place.run("buildozer-tree", "print kind size", "//...:all")[1].decode().splitlines()
    in_p1 = sum(i % 40 == 1 for i in range(FEW))
    place.expect("files", (out.count("f small"), out.count("f large"), out.count("h (missing)"), len(out)), (FEW - in_p1, in_p1, in_p1, FEW + in_p1))
    place.put({"a/lines": b"set size small|//...:all\ndelet|//...:all\n"})
    place.expect("a wrong one", (lambda run: (run[0], run[2][0], run[2][-1]))(place.run("buildozer-tree", "-f", "lines", here="a")),
                (1, "buildozer: delet: Unknown (31)", "lines:2: refused"))  # fmt: skip
    place.expect("from standard input", place.run("buildozer-tree", "-f", "-", text=b"delete|//...:%h\n")[0], 0)
    place.expect("beside operands", place.run("buildozer-tree", "-f", "a/lines", "//a:b")[0], 1)


def notes_are_no_refusals(place):
    """What is noted of each file is told, and the run is as one without it."""
    place.put({"MODULE.bazel": b"", **made(FEW)})
    status, _, err = place.run("buildozer-tree", "substitute deps (.) $1_test", "//...:all")
    notes = [line for line in err if line.startswith("buildozer: note: ")]
    place.expect("run", (status, len(notes), len(set(notes)), err[-1]), (0, FEW, FEW, f"{FEW} files fixed"))
    place.expect("lines", len(err), 2 * FEW + 1)
    place.put({"n1/BUILD": "f(name=“x”)\n".encode(), "n2/BUILD": b"x()\n"})
    status, _, err = place.run("buildifier-tree", "n1", "n2")
    place.expect("formatted", (status, err[0].startswith("buildifier: note: n1/BUILD:1: a name has "), err[1:]), (0, True, ["1 file reformatted, 1 left unchanged"]))


def failures_end_a_run(place):
    """Without -k no further package is begun; with it all are. What failed and what is left can be gone on with."""
    place.put({"MODULE.bazel": b"", **made(FEW), "p1/bad/BUILD": REFUSED, "p2/bad/BUILD": REFUSED})
    status, _, err = place.run("buildozer-tree", "--processes=1", "set size small", "//...:all")
    place.expect("status", (status, err[-2].endswith("not begun"), err[-1].startswith("to go on with just these: buildozer-tree ")), (2, True, True))
    done = sum(b"size" in text for text in place.files().values())
    place.put({"p1/bad/BUILD": ODD})
    words = shlex.split(err[-1].partition(": ")[2])
    status, _, err = place.run(words[0], "-k", *words[1:])
    count = FEW + 1 - done
    wanted = ["p2/bad/BUILD:2:1: Unexpected", "    ", "    ^ the end of the file", "    inside the '(' at 1:2", f"{count} files fixed, 1 refused", "to go on with just these: buildozer-tree -k --processes=1 'set size small' //p2/bad:all"]
    place.expect("going on", (status, err[count:]), (2, wanted))
    place.expect("files", sum(b"size" in text for text in place.files().values()), FEW + 1)


def changed_and_taken_back(place):
    """Byte for byte, with one file changed by hand in between, and told; done again; and gone on with once that one is as it was."""
    files = made(PACKAGES)
    place.put({"MODULE.bazel": b"", ".gitignore": b"*.journal\n", **files})
    place.git("init", "-q")
    before = place.files()
    status, _, err = place.run("buildozer-tree", "--journal", *EDIT, "//...:all")
    place.expect("edit", (status, err[-2:]), (0, [f"{len(files):,} files fixed", "this was run 1: buildozer-tree undo takes it back"]))
    after = place.files()
    place.expect("a second edit", place.run("buildozer-tree", "--journal", *QUIET, "remove testonly", "//p1/...:all"), (0, b"", []))
    second = place.files()
    place.expect("undo of the second", place.run("buildozer-tree", "undo", *QUIET), (0, b"", []))
    place.wants_files("after it", after)
    by_hand = "p2/q2/BUILD"
    place.put({by_hand: after[by_hand] + b"# by hand\n"})
    status, _, err = place.run("buildozer-tree", "undo")
    line = "run 1, buildozer-tree --journal 'set testonly True' 'add deps //lib:b' //...:all"
    wanted = [f"{by_hand}: left as it is: it does not hold the text that run 1 left", f"{len(files) - 1:,} files taken back, 1 left alone: {line}",
              "to go on with just these, once they hold that text: buildozer-tree undo 1"]  # fmt: skip
    place.expect("undo", (status, err[-3:]), (2, wanted))
    place.wants_files("taken back", {**before, by_hand: after[by_hand] + b"# by hand\n"})
    place.put({by_hand: after[by_hand]})
    place.expect("going on", place.run("buildozer-tree", "undo", *QUIET), (0, b"", []))
    place.wants_files("all taken back", before)
    place.expect("no more", place.run("buildozer-tree", "undo")[0], 2)
    place.expect("redo", place.run("buildozer-tree", "redo", *QUIET, here="p1"), (0, b"", []))
    place.wants_files("done again", after)
    place.expect("redo of the second", place.run("buildozer-tree", "redo", *QUIET), (0, b"", []))
    place.wants_files("both done again", second)
    place.expect("no redo", place.run("buildozer-tree", "redo")[0], 2)
    listed = place.run("buildozer-tree", "runs")[1].decode().splitlines()
    place.expect("runs", [re.sub(r" +\d+-\d+-\d+ \d+:\d+ +", " ", row) for row in listed],
                [f"   2 {len([i for i in range(PACKAGES) if i % 40 == 1])} files  buildozer-tree --journal --quiet --quiet 'remove testonly' //p1/...:all",
                 f"   1 {len(files):,} files  {line.partition(', ')[2]}"])  # fmt: skip


def formatted_and_taken_back(place):
    """Each package by `format`, as buildifier leaves it, whether it has the rule or not; and taken back byte for byte."""
    files = {**made(PACKAGES), **{f"odd/t{number}/BUILD": text for number, text in enumerate(TEXTS.values())}}
    place.put({"MODULE.bazel": b"", ".gitignore": b"*.journal\n", **files})
    place.git("init", "-q")
    before = place.files()
    place.expect("format", place.run("buildozer-tree", "--journal", *QUIET, "format", "//...:none"), (0, b"", []))
    place.wants_files("formatted", {**before, **formatted(place, files)})
    place.expect("again", place.run("buildozer-tree", "--journal", *QUIET, "format", "//...:all"), (3, b"", []))
    place.expect("undo", place.run("buildozer-tree", "undo", *QUIET), (0, b"", []))
    place.wants_files("taken back", before)


def edits_stopped_and_taken_back(place):
    """By each signal, and killed: what the run did is taken back, byte for byte, also with a file changed by others since."""
    files = made(PACKAGES // 2)
    place.put({"MODULE.bazel": b"", **files})
    place.git("init", "-q")
    for number in (*SIGNALS, signal.SIGKILL):
        place.put(files)
        before = place.files()
        status, err = stopped(place, "buildozer-tree", ["--journal", "--processes=2", *EDIT, "//...:all"], "buildozer", number)
        place.expect(f"{number.name}: status", status, -number)
        place.expect(f"{number.name}: told", any(line == f"stopped by {number.name}" for line in err), number != signal.SIGKILL)
        now = place.files()
        changed = [name for name in files if now[name] != before[name]]
        place.expect(f"{number.name}: midway", 0 < len(changed) < len(files), True)
        place.expect(f"{number.name}: undo", place.run("buildozer-tree", "undo", *QUIET), (0, b"", []))
        place.wants_files(f"{number.name}: taken back", before)
        place.expect(f"{number.name}: redo", place.run("buildozer-tree", "redo", *QUIET), (0, b"", []))
        place.wants_files(f"{number.name}: done again", now)
        by_others = changed[0]
        subprocess.run([place.programs["buildozer"], "--quiet", "--journal", "set size small", f"//{os.path.dirname(by_others)}:all"], cwd=place.folder, timeout=PATIENCE)
        others = place.files()[by_others]
        place.expect(f"{number.name}: with another change", place.run("buildozer-tree", "undo", *QUIET)[0], 2)
        place.wants_files(f"{number.name}: taken back but it", {**before, by_others: others})
        for journal in place.folder.rglob("*.journal"):
            journal.unlink()


def an_undo_that_is_stopped(place):
    """It goes on where it was stopped."""
    files = made(PACKAGES // 2)
    place.put({"MODULE.bazel": b"", **files})
    place.git("init", "-q")
    before = place.files()
    place.run("buildozer-tree", "--journal", *QUIET, *EDIT, "//...:all")
    for number in (signal.SIGTERM, signal.SIGKILL):
        status, _ = stopped(place, "buildozer-tree", ["undo", "--processes=2"], "buildozer", number)
        place.expect(f"{number.name}: status", status, -number)
    place.expect("undo", place.run("buildozer-tree", "undo", *QUIET), (0, b"", []))
    place.wants_files("taken back", before)


def two_edits_at_once(place):
    """Each has a run of its own, and each is taken back; one that is going on isn't."""
    files = made(FEW)
    place.put({"MODULE.bazel": b"", **files})
    place.git("init", "-q")
    before = place.files()
    place.replace("buildozer", WAITING.format(program=place.programs["buildozer"]))
    runs = [place.start("buildozer-tree", "--journal", *QUIET, "set size small", *(f"//p{i}/...:all" for i in range(40) if i % 2 == half)) for half in (0, 1)]
    records = place.folder / ".git/kinduzar/runs"
    while len(list(records.glob("*.json"))) < 2:
        time.sleep(0.01)
    status, _, err = place.run("buildozer-tree", "undo")
    place.expect("an undo meanwhile", (status, err), (2, ["buildozer-tree: undo: run 2 is going on"]))
    (place.folder / "go").touch()
    for run in runs:
        place.expect("a run", (run.communicate(timeout=PATIENCE), run.returncode), ((b"", b""), 0))
    place.fast("buildozer")
    for _ in runs:
        place.expect("undo", place.run("buildozer-tree", "undo", *QUIET), (0, b"", []))
    place.wants_files("taken back", {**before, "go": b""})


def where_runs_are_kept(place):
    """In .git, in a folder that is named, and apart for each workspace; a run that changed nothing is not kept."""
    place.put({"MODULE.bazel": b"", "a/BUILD": ODD, "in/WORKSPACE": b"", "in/a/BUILD": ODD})
    place.expect("no place", place.run("buildozer-tree", "--journal", "set size small", "//a:all")[0], 1)
    place.expect("a named one", place.run("buildozer-tree", "--state=kept", "--journal", *QUIET, "set size small", "//a:all"), (0, b"", []))
    place.expect("its undo", place.run("buildozer-tree", "--state", "kept", "undo", *QUIET), (0, b"", []))
    place.git("init", "-q")
    place.expect("nothing changed", place.run("buildozer-tree", "--journal", *QUIET, "remove none", "//a:all"), (3, b"", []))
    place.expect("no runs", place.run("buildozer-tree", "runs"), (0, b"", []))
    place.expect("within", place.run("buildozer-tree", "--journal", *QUIET, "set size small", "//a:all", here="in/a"), (0, b"", []))
    place.expect("of the outer one", place.run("buildozer-tree", "undo")[0], 2)
    place.expect("of the inner one", place.run("buildozer-tree", "undo", *QUIET, here="in"), (0, b"", []))
    place.expect("files", [place.files()[name] for name in ("a/BUILD", "in/a/BUILD")], [ODD, ODD])
    records = place.folder / ".git/kinduzar/runs"
    (records / "000009.json").write_text("{")
    place.expect("a torn record", place.run("buildozer-tree", "undo")[0], 2)


# ---- edits that are looked at, and what is said of them


def edits_that_are_looked_at(place):
    """What would change is shown, as a difference that patch applies or as whole texts, and nothing is written; the line below makes the edit."""
    files = made(FEW)
    place.put({"MODULE.bazel": b"", **files})
    place.git("init", "-q")
    names, after = sorted(files, key=os.path.dirname), edited(place, files, EDIT)
    before = {str(file): file.stat().st_mtime_ns for file in place.folder.rglob("*")}
    status, out, err = place.run("buildozer-tree", "--diff", "--journal", *EDIT, "//...:all")
    line = "to make this edit: buildozer-tree --journal 'set testonly True' 'add deps //lib:b' //...:all"
    place.expect("a difference", (status, re.findall(rb"(?m)^--- (.*)$", out), err), (0, [os.fsencode(name) for name in names], [f"{FEW} files would change", line]))
    whole = b"".join(b"==> %s <==\n%s" % (os.fsencode(name), after[name]) for name in names)
    place.expect("texts", place.run("buildozer-tree", "--stdout", *EDIT, "//...:all"), (0, whole, []))
    place.expect("one text", place.run("buildozer-tree", "--stdout", *EDIT, "//p1/q1:all"), (0, after["p1/q1/BUILD"], []))
    place.expect("what is there", {str(file): file.stat().st_mtime_ns for file in place.folder.rglob("*")}, before)
    if shutil.which("patch"):
        subprocess.run(["patch", "-p0", "-s"], cwd=place.folder, input=out, check=True, timeout=PATIENCE)
        place.wants_files("patched", {"MODULE.bazel": b"", **after})
        place.put(files)
    place.expect("the line", place.run(*shlex.split(line.partition(": ")[2]))[0], 0)
    place.wants_files("made", {"MODULE.bazel": b"", **after})
    place.expect("an undo", (lambda run: (run[0], run[1].count(b"--- ")))(place.run("buildozer-tree", "--diff", "--journal", "undo", "//...:all")), (0, FEW))
    refused = place.run("buildozer-tree", "--diff", "-k", "rename none some", "set size small", "//p1/...:all", "//z:all")
    place.expect("a refusal", (refused[0], refused[1].count(b"--- "), "z/BUILD: cannot open" in refused[2]), (2, len([i for i in range(FEW) if i % 40 == 1]), True))
    place.wants_files("at last", {"MODULE.bazel": b"", **after})


def labels_of_lines(place):
    """Each line that print prints says of which rule it is, also one of several, and of rules without a plain name."""
    text = b'f(name="x",d={"a":"b","c":"d"})\ng(name="y"+"z")\nh(1)\n'
    place.put({"MODULE.bazel": b"", "BUILD": text, "a/b/BUILD": text, "c/BUILD": b"f(\n"})
    rows = [["x x f"], ['%2 "y" + "z" g'], ["%3 (missing) h"]]
    lines = "".join(f"//{package}:{row}\n" for package in ("", "a/b") for (row,) in rows)
    status, out, err = place.run("buildozer-tree", "-k", "--labels", "print", "//...:all")
    place.expect("names and kinds", (status, out.decode(), err[0]), (2, lines, "c/BUILD:2:1: Unexpected"))
    wanted = '//a/b:x {\n//a/b:x     "a": "b",\n//a/b:x     "c": "d",\n//a/b:x }\n//a/b:%2 (missing)\n//a/b:%3 (missing)\n'
    place.expect("several lines", place.run("buildozer-tree", "--labels", "print d", "//a/...:all")[1].decode(), wanted)
    place.expect("a refusal", place.run("buildozer-tree", "--labels", "print d", "//a/b:none")[2][0], "buildozer: a/b/BUILD: print d: NoTarget (41)")
    for words in (["--labels", "print_comment", "//:x"], ["--labels", "--diff", "print", "//:x"], ["--diff", "--stdout", "delete", "//:x"]):
        place.expect(f"{words}", place.run("buildozer-tree", *words)[0], 1)


def values_in_select(place):
    """--profile is handed on to each process, and another word is what buildozer says of it."""
    text, left = b'f(\n    name = "x",\n    deps = select({"k": [":a"]}),\n)\n', b'f(\n    name = "x",\n    deps = select({"k": []}),\n)\n'
    place.put({"MODULE.bazel": b"", "a/BUILD": text, "b/BUILD": text})
    place.expect("own", place.run("buildozer-tree", "remove deps :a", "//...:all")[0], 3)
    place.expect("bazelbuild", place.run("buildozer-tree", "--profile=bazelbuild", "remove deps :a", "//...:all")[0], 0)
    place.wants_files("files", {"MODULE.bazel": b"", "a/BUILD": left, "b/BUILD": left})
    place.expect("labels", place.run("buildozer-tree", "--profile", "bazelbuild", "print label", "//...:all")[1], b"//a:x\n//b:x\n")
    place.expect("another", place.run("buildozer-tree", "--profile=x", "delete", "//...:all")[0], 1)


def what_is_not_said(place):
    """One --quiet leaves the summary, two leave neither; a package of ten with a rule of its own name is noted."""
    place.put({"MODULE.bazel": b"", **made(20), "p1/x/BUILD": ODD})
    place.expect("one", place.run("buildozer-tree", "--quiet", "set size small", "//...:all"), (0, b"", ["21 files fixed"]))
    place.expect("two", place.run("buildozer-tree", *QUIET, "set size large", "//...:all"), (0, b"", []))
    note = "//...: 1 of 21 packages have a rule of their own name; //...:all means all rules"
    place.expect("few rules", place.run("buildozer-tree", "set size medium", "//..."), (0, b"", ["fixed p1/x/BUILD", note, "1 file fixed"]))


def a_run_without_a_journal(place):
    """After it an undo says so, and takes a number alone; after a further run with one it does without."""
    place.put({"MODULE.bazel": b"", **made(4)})
    place.git("init", "-q")
    place.run("buildozer-tree", "set size small", "//p1/...:all")
    place.expect("none before", place.run("buildozer-tree", "undo")[2][0], "buildozer-tree: undo: the last run kept no journal: buildozer-tree 'set size small' //p1/...:all")
    before = place.files()
    place.run("buildozer-tree", "--journal", "set size large", "//...:all")
    place.run("buildozer-tree", "set timeout long", "//p1/...:all")
    wanted = ["buildozer-tree: undo: the last run kept no journal: buildozer-tree 'set timeout long' //p1/...:all",
              "buildozer-tree: to take back the run before it: buildozer-tree undo 1 (buildozer-tree --journal 'set size large' //...:all)"]  # fmt: skip
    place.expect("undo", place.run("buildozer-tree", "undo"), (2, b"", wanted))
    place.run("buildozer-tree", "remove timeout", "//p1/...:all")
    place.expect("by its number", place.run("buildozer-tree", "undo", "1", *QUIET), (0, b"", []))
    place.wants_files("taken back", before)
    place.run("buildozer-tree", "--journal", "set size medium", "//p2/...:all")
    place.expect("a further one", place.run("buildozer-tree", "undo", *QUIET)[0], 0)


def journals_that_git_knows(place):
    """The first run with --journal says how git ignores them, where it doesn't; that line does."""
    place.put({"MODULE.bazel": b"", **made(4)})
    place.git("init", "-q")
    line = place.run("buildozer-tree", "--journal", "set size small", ":all", here="p1/q1")[2][-1]
    place.expect("the line", line, "git doesn't ignore the journals yet: printf '*.journal\\n*.bznew\\n' >> ../../.gitignore")
    place.expect("a second run", place.run("buildozer-tree", "--journal", "set size small", "//p2/...:all")[2][-1], "this was run 2: buildozer-tree undo takes it back")
    subprocess.run(["sh", "-c", line.partition(": ")[2]], cwd=place.folder / "p1/q1", check=True, timeout=PATIENCE)
    new = subprocess.run(["git", "status", "--porcelain", "-uall"], cwd=place.folder, env=place.environment, capture_output=True, timeout=PATIENCE).stdout.decode()
    place.expect("what git has", [row for row in new.splitlines() if "journal" in row], [])


def journals_for_people(place):
    """Aligned, with the beginning of the digest, and with the time where a run has left a text; buildozer's own list is as it was."""
    place.put({"MODULE.bazel": b"", "a/BUILD": ODD, "b/BUILD": ODD})
    place.git("init", "-q")
    place.run("buildozer-tree", *QUIET, "--journal", "set size small", "//a:all")
    words = [place.programs["buildozer"], "--journal", "--quiet", *(f"set size s{i}" for i in range(9)), "undo", "//a:all"]
    subprocess.run(words, cwd=place.folder, check=True, timeout=PATIENCE)
    status, out, err = place.run("buildozer-tree", "journal", "//...:all", here="a")
    rows = [re.sub(rb"[0-9a-f]{12}", b"D", re.sub(rb"\d{4}-\d\d-\d\d \d\d:\d\d", b"WHEN            ", row)) for row in out.splitlines()]
    place.expect("listed", (status, len(rows), rows[0], rows[2], rows[10:], err), (3, 12, b"a/BUILD", b"     1  D  WHEN              set size small",
                 [b"  *  9  D                    set size s7", b"    10  D                    set size s8"], []))  # fmt: skip
    place.expect("none", place.run("buildozer-tree", "journal", "//b:all"), (2, b"", ["b/BUILD: there is no journal"]))
    own = subprocess.run([place.programs["buildozer"], "--journal", "journal", "//a:all"], cwd=place.folder, capture_output=True, timeout=PATIENCE)
    place.expect("buildozer's own", place.run("buildozer-tree", "--journal", "journal", "//a:all")[1], own.stdout)


COUNTING = """#!/bin/sh
echo >> "{pids}"
exec {program} "$@"
"""


def processes_for_names(place):
    """A name costs no process for each package: about as many as all rules, to look which packages have it, and as many to edit these."""
    place.put({"MODULE.bazel": b"", **made(PACKAGES, ODD + b'g(name="here")\n')})
    counts = place.scratch / "counts"
    place.replace("buildozer", COUNTING.format(pids=counts, program=place.programs["buildozer"]))
    found = []
    for target in ("//...:all", "//...:here", "//...:x1"):
        counts.write_text("")
        place.expect(target, place.run("buildozer-tree", "--processes=2", "print kind", target)[0], 3)
        found.append(counts.read_text().count("\n"))
    place.expect("processes", (found[1] <= 2 * found[0], found[2] <= found[0] + 2), (True, True))


def a_text_on_standard_input(place):
    """It is refused where no path is named, so that no folder is formatted in its place."""
    place.put({"a/BUILD": ODD, "b/BUILD": ODD})
    line = "buildifier-tree: standard input is a file: for that text buildifier < FILE, for the working directory buildifier-tree ."
    with open(place.folder / "a/BUILD") as text:
        place.expect("a text", place.run("buildifier-tree", stdin=text), (2, b"", [line, "buildifier-tree: see buildifier-tree --help"]))
    place.wants_files("files", {"a/BUILD": ODD, "b/BUILD": ODD})
    with open(place.folder / "a/BUILD") as text:
        place.expect("with a path", place.run("buildifier-tree", "b", stdin=text), (0, b"", ["1 file reformatted"]))
    (place.folder / "none").touch()
    with open(place.folder / "none") as text:
        place.expect("no text", place.run("buildifier-tree", stdin=text), (0, b"", ["1 file reformatted, 1 left unchanged"]))


# ---- both


def sources_are_of_python_3_9(place):
    """All files are read by the grammar of the oldest version."""
    before, files = sorted(TREE.rglob("*")), [*TREE.glob("*-tree"), *TREE.rglob("*.py")]
    place.expect("files", len(files) > 5, True)
    for file in files:
        ast.parse(file.read_text(), str(file), feature_version=(3, 9))
    others = filter(None, map(shutil.which, ("python3.9", "python3.10", "python3.12", "python3.13", "python3.14")))
    for python in [other for other in others if subprocess.run([other, "-c", ""], capture_output=True, timeout=PATIENCE).returncode == 0]:
        for command in COMMANDS:
            run = subprocess.run([python, TREE / command, "--help"], capture_output=True, timeout=PATIENCE)
            place.expect(f"{python} {command}", (run.returncode, run.stderr), (0, b""))
    place.expect("left beside them", sorted(TREE.rglob("*")), before)


TREES = named(
    all_files_are_formatted, paths_and_usage, refusals_are_sorted, differences, only_what_changed, a_process_that_is_killed, formats_stopped_and_run_again,
    slow_processes_are_ended, two_formats_at_once, on_a_terminal, the_bar_is_below_lines, a_closed_output, all_packages_are_edited, targets_mean_packages, targets_mean_files, names_that_no_target_has,
    lines_in_their_order, notes_are_no_refusals, failures_end_a_run, changed_and_taken_back, formatted_and_taken_back, edits_stopped_and_taken_back, an_undo_that_is_stopped, two_edits_at_once, where_runs_are_kept,
    edits_that_are_looked_at, labels_of_lines, values_in_select, what_is_not_said, a_run_without_a_journal, journals_that_git_knows, journals_for_people, processes_for_names, a_text_on_standard_input,
    sources_are_of_python_3_9,
)  # fmt: skip
SCENES = Scenes(__file__, {name: with_git(scene, lambda what: SCENES.say(what)) for name, scene in TREES.items()}, place=place)

if __name__ == "__main__":
    SCENES.main()
