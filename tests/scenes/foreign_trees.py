#!/usr/bin/env python3
"""Runs the commands of contrib/tree/ over trees as others may make them, such as a clone or an archive has, and under limits of the system.

Nothing outside of the tree is read, run or written, whatever links, pipes, names, ignores and configuration of git are in it; no name writes a line
of its own; what cannot be read, started or kept is named; and an undo takes back its own run alone.

    [HOSTILE=whole] tests/scenes/foreign_trees.py BUILDOZER BUILDIFIER
"""
import json
import os
import pathlib
import re
import shlex
import shutil
import signal
import subprocess
import sys
import tempfile
import time

from lib.runs import NOBODY, PATIENCE
from lib.scenes import WHOLE, Scenes, named, sample
from lib.trees import EVEN, FEW, ODD, TREE, limited, made, place, with_git

QUIET = ("--quiet", "--quiet")
SMALL = ["--journal", "set size small", "//...:all"]
# what a run may take that must not wait for anything, in seconds
SOON = 60
SECRET = b"a_secret_of_the_user(\n"
# a user whom no file of the tests belongs to
STRANGER = 54321
# what a repository's own configuration could run in calls of git, or have it read; {program} leaves a mark
SETTINGS = """[core]
	repositoryformatversion = 1
	bare = {bare}
	fsmonitor = {program}
	hooksPath = {hooks}
	pager = {program}
	editor = {program}
	askPass = {program}
	sshCommand = {program}
	alternateRefsCommand = {program}
	gitProxy = {program}
	excludesFile = {outside}/names
	attributesFile = {outside}/names
[include]
	path = {outside}/more
[includeIf "gitdir:/"]
	path = {outside}/more
[extensions]
	partialClone = o
	worktreeConfig = true
[alias]
	ls-files = !{program}
	check-ignore = !{program}
	diff = !{program}
	rev-parse = !{program}
[remote "o"]
	url = {outside}
	promisor = true
	uploadpack = {program}
	vcs = evil
[url "ext::{program} "]
	insteadOf = {outside}
[protocol]
	allow = always
[submodule "m"]
	url = {outside}
	update = !{program}
	ignore = none
[filter "evil"]
	clean = {program}
	smudge = {program}
	process = {program}
[merge "evil"]
	driver = {program}
[diff "evil"]
	command = {program}
	textconv = {program}
[diff]
	external = {program}
	submodule = diff
[pager]
	diff = {program}
	ls-files = {program}
[credential]
	helper = {program}
[gpg]
	program = {program}
[uploadpack]
	packObjectsHook = {program}
"""
EVIL = b"* filter=evil diff=evil merge=evil\n"
# programs that are called, and modules that are read, by names that a clone may have, too
ALIKE = ["git", "diff", "buildozer", "buildifier", "python3", "json.py", "subprocess.py", "sitecustomize.py", "kinduzar_tree/__init__.py"]
# what git reads by its own configuration, and prints nothing of
OF_GIT = ("names", "more", "repository")
LONG_AGO = 1_000_000_000


# ---- what a clone can bring


class Outside:
    """A folder beside the tree, which no run may read, run or write; a program there leaves a mark."""

    def __init__(self, place):
        self.place, self.folder = place, place.scratch / "outside"
        (self.folder / "hooks").mkdir(parents=True)
        self.mark = place.scratch / "mark"
        self.marking = f'#!/bin/sh\necho "$0 $*" >> {self.mark}\n'.encode()
        for name in ("BUILD", "secret", "names", "more", "hooks/post-index-change", "hooks/reference-transaction", "program"):
            file = self.folder / name
            file.write_bytes(self.marking if "/" in name or name == "program" else SECRET)
            file.chmod(0o755)
        (self.folder / "more").write_text(f"[core]\n\tfsmonitor = {self.folder}/program\n[diff]\n\texternal = {self.folder}/program\n")
        subprocess.run(["git", "init", "-q", self.folder / "repository"], env=place.environment, check=True, timeout=PATIENCE)
        (self.folder / "repository/BUILD").write_bytes(SECRET)
        self.before = self.seen()

    def settings(self, bare=False, has_monitor=True, further=""):
        text = SETTINGS if has_monitor else SETTINGS.replace("\tfsmonitor = {program}\n", "").replace("\tpath = {outside}/more\n", "")
        return (text + further).format(program=self.folder / "program", hooks=self.folder / "hooks", outside=self.folder, bare=str(bare).lower()).encode()

    def read(self):
        """The files that were read since `seen` where the system notes that, but for those that git reads by itself."""
        files = [file for file in self.folder.rglob("*") if file.is_file() and file.relative_to(self.folder).parts[0] not in OF_GIT]
        return [str(file) for file in files if os.stat(file).st_atime != LONG_AGO]

    def seen(self):
        """Each name with what the system says of it, times aside, and its content."""
        found = sorted((str(file), os.lstat(file).st_mode, os.readlink(file) if file.is_symlink() else file.read_bytes() if file.is_file() else b"") for file in self.folder.rglob("*"))
        for file in self.folder.rglob("*"):
            os.utime(file, (LONG_AGO, os.stat(file).st_mtime))
        return found

    def is_untouched(self, what, run):
        """Nothing there was read, changed or run, and nothing of it is printed."""
        self.place.expect(f"{what}: read", self.read(), [])
        self.place.expect(f"{what}: outside", self.seen(), self.before)
        self.place.expect(f"{what}: run", self.mark.read_text() if self.mark.exists() else "", "")
        status, out, err = run
        said = [line for line in [out.decode(errors="replace"), *err] if "a_secret" in line or "Traceback" in line]
        self.place.expect(f"{what}: printed", said, [])
        self.mark.unlink(missing_ok=True)


def hostile(place, outside):
    """A repository of git with what another one may put into it."""
    place.put({**made(20), ".gitattributes": EVIL, "MODULE.bazel": b"", ".gitmodules": f'[submodule "m"]\n\tpath = m\n\turl = {outside.folder}\n\tupdate = !{outside.folder}/program\n'.encode()})
    place.git("init", "-q")
    place.git("add", "-A")
    place.git("update-index", "--add", "--cacheinfo", f"160000,{'1' * 40},m")
    place.git("commit", "-qm", "one")
    place.put({".git/config": outside.settings(), "p1/q1/BUILD": ODD + b"# changed\n"})
    # the same as its time, which git then reads again
    for name in ("p2/q2/BUILD", ".git/index"):
        os.utime(place.folder / name, (1_700_000_000, 1_700_000_000))
    for bare in ("bare", ".git/modules/m"):
        shutil.copytree(place.folder / ".git", place.folder / bare, ignore=shutil.ignore_patterns("objects", "modules"))
        (place.folder / bare / "objects").mkdir()
        place.put({f"{bare}/config": outside.settings(bare=bare == "bare", further="" if bare == "bare" else "[core]\n\tworktree = {outside}\n")})
    place.put({"bare/BUILD": EVEN, "m/.git": b"gitdir: ../.git/modules/m\n", "m/BUILD": EVEN, "w/.git": b"gitdir: %s/repository/.git\n" % os.fsencode(outside.folder), "w/BUILD": EVEN})
    put_links(place, outside.folder)
    place.put({"p5/WORKSPACE": b"", "p5/BUILD": EVEN, "p8/WORKSPACE": b"", "p8/BUILD": EVEN, "p9/BUILD": ODD, "v/BUILD": EVEN, "y/z/BUILD": EVEN, "w/MODULE.bazel": b"", "v/MODULE.bazel": b""})
    put_configuration(place, outside)
    os.mkfifo(place.folder / "p6/BUILD")
    os.mkfifo(place.folder / "p7/BUILD.bazel")


def put_links(place, folder):
    """Links of files and folders that lead outside."""
    links = {"link": "", "p9/link": "", "out": "BUILD", "p3/BUILD": "BUILD", "p4/q4/MODULE.bazel": "secret", "p5/.bazelignore": "secret", "p8/REPO.bazel": "secret", "y/MODULE.bazel": "secret",
             "p9/BUILD.bznew": "secret", ".git/kinduzar": "", "v/.git": "repository/.git"}  # fmt: skip
    for name, to in links.items():
        (place.folder / name).parent.mkdir(parents=True, exist_ok=True)
        (place.folder / name).symlink_to(folder / to)


def put_configuration(place, outside):
    """Further files of git's that name what is outside, and files that are called as programs and modules are."""
    place.put({
        ".git/config.worktree": outside.settings(), ".git/info/attributes": EVIL, ".git/info/exclude": b"none\n", ".git/worktrees/w/gitdir": b"%s\n" % os.fsencode(outside.folder),
        ".git/objects/info/alternates": b"%s/repository/.git/objects\n" % os.fsencode(outside.folder), **{f"{folder}{name}": outside.marking for folder in ("", "p9/") for name in ALIKE},
    })  # fmt: skip
    for name in ALIKE:
        (place.folder / name).chmod(0o755)


CLONED = [
    ("buildifier-tree", ["--mode=check"]), ("buildifier-tree", ["--mode=diff"]), ("buildifier-tree", ["--diff-from=HEAD", "--mode=check"]),
    ("buildifier-tree", ["--diff-from=HEAD...HEAD", "--mode=check"]), ("buildifier-tree", ["--diff-from=none", "--mode=check"]),
    ("buildozer-tree", ["--diff", "-k", *SMALL]), ("buildozer-tree", ["--stdout", "-k", "set size small", "//...:all"]), ("buildifier-tree", []),
    ("buildozer-tree", ["-k", "set size small", "//...:all"]), ("buildozer-tree", ["-k", *SMALL]), ("buildozer-tree", ["--labels", "print name", "//...:x1"]),
    ("buildozer-tree", ["undo"]), ("buildozer-tree", ["redo"]), ("buildozer-tree", ["runs"]), ("buildozer-tree", ["journal", "//p1/q1:all"]),
]  # fmt: skip


def what_a_clone_brings(place):
    """Links, pipes, ignores, names and configuration of git lead out of no tree, also in a folder that is a repository without saying so."""
    outside = Outside(place)
    hostile(place, outside)
    for command, words in CLONED:
        # the monitor keeps git from looking at files, and so from the filters
        for name in (".git/config", ".git/config.worktree"):
            place.put({name: outside.settings(has_monitor=not any("diff-from" in word for word in words))})
        for here in (".", "bare", "p5", "m", "w", "v", "y/z") if WHOLE or "--diff-from=HEAD" in words else (".",):
            before = time.monotonic()
            outside.is_untouched(f"{command} {words} in {here}", place.run(command, *words, here=here))
            place.expect(f"{command} {words} in {here}: in time", time.monotonic() - before < SOON, True)
    for here in ("w", "v"):  # there .git leads to a repository that is none of this tree
        run = place.run("buildozer-tree", *SMALL, here=here)
        outside.is_untouched(f"a repository elsewhere, in {here}", run)
        place.expect(f"in {here}", (run[0], run[2][:1]), (1, ["buildozer-tree: what undo needs is kept in .git, and there is none of this tree: give --state=DIR"]))
    shutil.rmtree(place.folder / ".git/objects")
    (place.folder / ".git/objects").mkdir()
    outside.is_untouched("objects that are missing", place.run("buildifier-tree", "--diff-from=HEAD", "--mode=check"))
    place.expect("files", [os.readlink(place.folder / name) for name in ("p3/BUILD", "out")], [str(outside.folder / "BUILD")] * 2)


def a_state_that_leads_outside(place):
    """Links in the place of what an undo needs, and of what is kept of a run that was refused, are followed nowhere."""
    outside = Outside(place)
    place.put({**made(FEW), "MODULE.bazel": b""})
    place.git("init", "-q")
    kept = place.folder / ".git/kinduzar"
    for links in ({"": ""}, {"runs": ""}, {"runs/lock": "secret", "runs/000001.json": "secret", "runs/000001.lock": "secret", "runs/plain": "secret", "rest": "secret"}, {"runs/lock": "new", "runs/000002.lock": "new", "rest": "new"}):
        place.put({name: ODD.replace(b"x", b"(") for name in made(FEW)})
        for name, to in links.items():
            (kept / name).parent.mkdir(parents=True, exist_ok=True)
            os.symlink(outside.folder / to, str(kept / name).rstrip("/"))
        for command, words in [("buildifier-tree", []), ("buildozer-tree", ["-k", *SMALL]), ("buildozer-tree", ["set size large", "//p1/q1:all"]), ("buildozer-tree", ["runs"]), ("buildozer-tree", ["undo"]), ("buildozer-tree", ["undo", "1"])]:
            outside.is_untouched(f"{command} {words} with {links}", place.run(command, *words))
        kept.unlink() if kept.is_symlink() else shutil.rmtree(kept)


def ignores_that_cannot_be_read(place):
    """A .bazelignore that is endless, a pipe, or leads out of its workspace is named, and nothing of that workspace is touched; one that leads to
    another file in it is read."""
    place.put({"a/BUILD": ODD, "b/WORKSPACE": b"", "b/BUILD": ODD, "c/BUILD": ODD, "d/WORKSPACE": b"", "d/e/BUILD": ODD, "d/BUILD": ODD, "d/names": b"e\n"})
    (place.folder / "b/.bazelignore").symlink_to("/dev/zero")
    (place.folder / "d/.bazelignore").symlink_to("names")
    wanted = ["b/.bazelignore: cannot open", "3 files reformatted, 1 left unchanged, 1 refused"]
    place.expect("a part", place.run("buildifier-tree")[::2], (3, [*wanted, "to go on with just these: buildifier-tree b"]))
    place.expect("no package is left", place.run("buildozer-tree", "--labels", "print name", "//...:all", here="b"), (2, b"", [".bazelignore: cannot open", "1 file refused"]))
    place.expect("files", [place.files()[name] for name in ("a/BUILD", "b/BUILD", "d/BUILD", "d/e/BUILD")], [EVEN, ODD, EVEN, ODD])
    place.put({"MODULE.bazel": b""})
    for make in (os.mkfifo, os.mkdir, lambda file: os.symlink(place.scratch / "none", file), lambda file: file.write_bytes(b"x" * (16 << 20) + b"x")):
        file = place.folder / ".bazelignore"
        make(file)
        status, _, err = place.run("buildozer-tree", "set size small", "//...:all")
        place.expect("the whole", (status, err[:1]), (2, [".bazelignore: cannot open"]))
        os.rmdir(file) if file.is_dir() else file.unlink()


def directories_that_are_ignored(place):
    """Those of ignore_directories in REPO.bazel, by its patterns, whose stars cost no more than the names are long."""
    text = b'# c\nrepo(default_visibility = ["//x"])\nignore_directories([\n    "a", # "d"\n    \'b/*/c\',\n    "**/node_modules",\n    "%s",\n])\n' % (b"*a" * 60)
    names = ["a/BUILD", "a/x/BUILD", "b/BUILD", "b/x/BUILD", "b/x/c/BUILD", "b/x/y/c/BUILD", "d/node_modules/BUILD", "node_modules/x/BUILD", "d/BUILD", f"{'a' * 200}b/BUILD"]
    place.put({"REPO.bazel": text, **dict.fromkeys(names, ODD), "odd/REPO.bazel": b'ignore_directories(["' * 20_000, "odd/BUILD": ODD})
    place.expect("printed", place.run("buildozer-tree", "print name", "//...:all")[:2], (3, b"x\n" * 5))
    place.run("buildifier-tree")
    left = {name for name in names if place.files()[name] == ODD}
    place.expect("left", left, {"a/BUILD", "a/x/BUILD", "b/x/c/BUILD", "d/node_modules/BUILD", "node_modules/x/BUILD"})


def endless_files(place):
    """Files that are named to be read are read no further than they may be long; a BUILD file that is too long is named."""
    place.put({"MODULE.bazel": b"", "a/BUILD": ODD, "b/BUILD": b""})
    place.git("init", "-q")
    os.truncate(place.folder / "b/BUILD", 3 << 30)
    os.mkfifo(place.folder / "pipe")
    for command, words, status in (("buildifier-tree", "--from=/dev/zero", 2), ("buildozer-tree", "-f/dev/zero", 1)):
        run = place.run(command, words)
        place.expect(words, (run[0], run[2][0]), (status, f"{command}: /dev/zero: it has more than 16,777,216 bytes"))
    place.expect("a pipe", place.run("buildifier-tree", "--from=pipe"), (0, b"", ["no BUILD files were found"]))
    status, _, err = place.run("buildozer-tree", "-k", *SMALL)
    place.expect("a long one", (status, err[:4]), (2, ["fixed a/BUILD", "b/BUILD: TooLarge", "    a text that is read has at most 67,108,864 bytes", "1 file fixed, 1 refused"]))


FORGED = ["a\nfixed forged", "b\x1b[31m", "c\u009bm", "d\rfixed e", "tab\tbed"]


def names_write_no_lines(place):
    """A control character of a name is written by its number, in each line; the files with such names are edited, kept and taken back."""
    place.put({"MODULE.bazel": b"", **{f"{name}/BUILD": ODD for name in FORGED}, "z/BUILD": ODD})
    place.git("init", "-q")
    before = place.files()
    status, _, err = place.run("buildozer-tree", *SMALL)
    place.expect("edit", (status, sorted(err)[1:5], [line for line in err if not line.isprintable()]),
                 (2, ["a\\nfixed forged/BUILD: no target can name this package", "d\\rfixed e/BUILD: no target can name this package", "fixed b\\x1b[31m/BUILD", "fixed c\\u{9b}m/BUILD"], []))  # fmt: skip
    place.expect("undo", (lambda run: (run[0], sorted(run[2])[1:]))(place.run("buildozer-tree", "undo")),
                 (0, ["fixed b\\x1b[31m/BUILD", "fixed c\\u{9b}m/BUILD", "fixed tab\\tbed/BUILD", "fixed z/BUILD"]))  # fmt: skip
    place.wants_files("taken back", before)
    place.put({f"{name}/BUILD": b"f(\n" for name in FORGED})
    status, _, err = place.run("buildifier-tree")
    place.expect("formats", (status, [line for line in err if not line.isprintable()], sum(": Unexpected" in line for line in err)), (1, [], len(FORGED)))
    place.put({f"{name}/BUILD": ODD for name in FORGED})
    place.expect("going on", place.run(*shlex.split(err[-1].partition(": ")[2])), (0, b"", [f"{len(FORGED)} files reformatted"]))


def trees_of_other_repositories(place):
    """A worktree and a submodule keep what an undo needs where git keeps what is theirs."""
    place.put({"MODULE.bazel": b"", "a/BUILD": ODD})
    place.git("init", "-q")
    place.git("add", "-A")
    place.git("commit", "-qm", "one")
    place.git("worktree", "add", "-q", "../worktree")
    place.git("-c", "protocol.file.allow=always", "submodule", "add", "-q", str(place.folder), "m")
    for here, kept in (("../worktree", ".git/worktrees/worktree"), ("m", ".git/modules/m")):
        place.expect(f"{here}: edit", place.run("buildozer-tree", *QUIET, *SMALL, here=here), (0, b"", []))
        place.expect(f"{here}: kept", (place.folder / kept / "kinduzar/runs/000001.json").exists(), True)
        place.expect(f"{here}: undo", place.run("buildozer-tree", *QUIET, "undo", here=here), (0, b"", []))
        place.expect(f"{here}: file", (place.folder / here / "a/BUILD").read_bytes(), ODD)


def names_that_begin_with_a_dash(place):
    """The line that goes on takes them."""
    place.put({"-d/BUILD": b"f(\n", "e/BUILD": ODD})
    line = place.run("buildifier-tree")[2][-1].partition(": ")[2]
    place.expect("the line", line, "buildifier-tree -- -d/BUILD")
    place.put({"-d/BUILD": ODD})
    place.expect("going on", place.run(*line.split()), (0, b"", ["1 file reformatted"]))


def nested(folder, names):
    """Makes folders in one another."""
    at = os.open(folder, os.O_RDONLY)
    for name in names:
        os.mkdir(name, dir_fd=at)
        at, above = os.open(name, os.O_RDONLY, dir_fd=at), at
        os.close(above)
    os.close(at)


def a_deep_tree(place):
    """1,200 folders in one another are walked; a folder that is too deep to be read is named, and the others are edited."""
    deep = "/".join("d" * 1200)
    place.put({"MODULE.bazel": b"", "a/BUILD": ODD, ".bazelignore": b"none\n"})
    nested(place.folder, "d" * 1200)
    (place.folder / deep / "BUILD").write_bytes(ODD)
    nested(place.folder, ["n" * 250] * 18)
    try:
        status, _, err = place.run("buildozer-tree", "set size small", "//...:all")
        closed = [line for line in err if line.endswith(": cannot open")]
        place.expect("edit", (status, err[:2], len(closed), err[-1]), (2, ["fixed a/BUILD", f"fixed {deep}/BUILD"], 1, "2 files fixed, 1 refused"))
        status, _, err = place.run("buildifier-tree", "--mode=check")
        place.expect("check", (status, err[0] == closed[0]), (3, True))
    finally:  # so deep a folder is too much for Python's own removing
        subprocess.run(["rm", "-rf", *place.folder.glob("[dn]*")], check=True, timeout=PATIENCE)


def repositories_that_are_broken(place):
    """A repository in the tree of which git will not speak is named and left, and all else is formatted."""
    place.put({**made(FEW), "in/BUILD": ODD, "odd/BUILD": ODD})
    place.git("init", "-q")
    for name in ("in", "odd"):
        subprocess.run(["git", "init", "-q", place.folder / name], env=place.environment, check=True, timeout=PATIENCE)
    place.put({"in/.git/config": b"[core\n"})
    foreign = os.geteuid() == 0
    if foreign:
        os.chown(place.folder / "odd", STRANGER, STRANGER)
        os.chown(place.folder / "odd/.git", STRANGER, STRANGER)
    status, _, err = place.run("buildifier-tree")
    place.expect("run", (status, [line.split(": ")[:2] for line in err if ": git: " in line]), (3, [["in", "git"], ["odd", "git"]][: 1 + foreign]))
    place.expect("files", [place.files()[name] for name in ("p1/q1/BUILD", "in/BUILD", "odd/BUILD")], [EVEN.replace(b'"x"', b'"x1"'), ODD, ODD if foreign else EVEN])


def roots_of_others(place):
    """What another user has put above the working directory makes no root, unless that is inside of a repository of the user."""
    place.put({"MODULE.bazel": b"", "app/BUILD": ODD, "app/c/BUILD": ODD, ".bazelignore": b"app/c\n"})
    if os.geteuid() != 0:
        SCENES.say("roots of others: not run, since only root can give a file away")
        return
    os.chown(place.folder / "MODULE.bazel", STRANGER, STRANGER)
    note = f"{place.folder}/MODULE.bazel: passed over as the root of a workspace, since it is another user's"
    place.expect("edit", place.run("buildozer-tree", "set size small", ":all", here="app"), (0, b"", ["fixed BUILD", note, "1 file fixed"]))
    place.expect("check", (lambda run: (run[1], run[2][0]))(place.run("buildifier-tree", "--mode=check", here="app")), (b"c/BUILD # reformat\n", note))
    place.expect("the folder itself", place.run("buildozer-tree", "print name", "//app:all"), (3, b"x\n", []))
    place.git("init", "-q")
    place.expect("in a repository", place.run("buildozer-tree", "print name", "//app:all", here="app"), (3, b"x\n", []))


# ---- limits of the system


def few_descriptors(place):
    """Every file that is edited is kept, and taken back; where not even one process can be started that is said."""
    files = made(FEW)
    place.put({"MODULE.bazel": b"", **files})
    place.git("init", "-q")
    before = place.files()
    for most in (40, 24) if WHOLE else (40,):
        status, _, err = place.run("buildozer-tree", *SMALL, **limited(NOFILE=most))
        place.expect(f"{most}: edit", (status, err[FEW]), (0, f"{FEW} files fixed"))
        place.expect(f"{most}: undo", place.run("buildozer-tree", "undo", *QUIET, **limited(NOFILE=most)), (0, b"", []))
        place.wants_files(f"{most}: taken back", before)
    for most in sample(range(5, 12), 3):
        for command, words in (("buildozer-tree", SMALL), ("buildifier-tree", ["--mode=check"])):
            status, _, err = place.run(command, *words, **limited(NOFILE=most))
            place.expect(f"{most}: {command}", (status in (0, 1, 2, 3, 4), bool(err), [line for line in err if "Traceback" in line]), (True, True, []))


def few_processes(place):
    """Where the system has room for few, and for threads that wait for them, fewer run; where it has for none, what is not begun is said."""
    nobody = as_nobody(place)
    if nobody is None:
        SCENES.say("few processes: not run, since python3 can't be run by a user to whom limits count")
        return
    place.put({"MODULE.bazel": b"", **made(FEW)})
    whole = f"{FEW} files fixed"
    for most, wanted in ((24, whole), (12, whole), (4, whole), (1, "")) if WHOLE else ((12, whole), (1, "")):
        place.put(made(FEW))
        status, _, err = nobody("buildozer-tree", "set size small", "//...:all", **limited(NPROC=most))
        place.expect(f"{most}", (status, wanted in err, [line for line in err if "Traceback" in line]), (0 if wanted else 2, bool(wanted), []))


def as_nobody(place):
    """A function that runs a command as a user to whom rights and limits count, over the tree, which is that user's then; None where that can't be."""
    if os.geteuid() != 0:
        return place.run
    python = next((file for file in ("/usr/bin/python3", sys.executable) if is_for_all(file)), None)
    if python is None:
        return None
    for file in (place.scratch, place.path):
        file.chmod(0o755)
    tree = shutil.copytree(TREE, place.scratch / "tree")
    for name in ("buildozer", "buildifier"):
        (place.path / name).unlink()
        shutil.copy(place.programs[name], place.path / name)
        (place.path / name).chmod(0o755)

    def run(command, *words, here=".", **how):
        for folder, _, names in os.walk(place.folder.parent):
            for name in [folder, *(os.path.join(folder, name) for name in names)]:
                os.chown(name, NOBODY, NOBODY, follow_symlinks=False)
        users = {"user": NOBODY, "group": NOBODY, "extra_groups": []}
        ended = subprocess.run([python, "-IS", tree / command, *words], cwd=place.folder / here, env=place.environment, stdin=subprocess.DEVNULL, capture_output=True, timeout=PATIENCE, **users, **how)
        return ended.returncode, ended.stdout, ended.stderr.decode(errors="surrogateescape").split("\n")[:-1]

    return run


def is_for_all(python):
    """Whether any user can run it, and it is new enough."""
    how = {"user": NOBODY, "group": NOBODY, "extra_groups": [], "cwd": "/", "capture_output": True, "timeout": PATIENCE}
    try:
        return subprocess.run([python, "-ISc", "import sys, subprocess, json; sys.exit(sys.version_info < (3, 9))"], **how).returncode == 0
    except OSError:
        return False


def folders_that_are_closed(place):
    """They are named, and what is elsewhere is edited; an unreadable BUILD.bazel leaves the turn to BUILD, which is kept and taken back; a state of
    another user's is said."""
    nobody = as_nobody(place)
    if nobody is None:
        SCENES.say("folders that are closed: not run, since python3 can't be run by a user to whom rights count")
        return
    place.put({"MODULE.bazel": b"", "a/BUILD": ODD, "b/BUILD": ODD, "c/BUILD": ODD, "c/BUILD.bazel": ODD, "kept/none": b""})
    (place.folder / "b").chmod(0)
    (place.folder / "c/BUILD.bazel").chmod(0)
    status, _, err = nobody("buildozer-tree", "--state=state", "-k", *SMALL)
    place.expect("edit", (status, err[:2], {"b: cannot open", "c/BUILD.bazel: cannot open"} <= set(err)), (2, ["fixed a/BUILD", "fixed c/BUILD"], True))
    place.expect("check", (lambda run: (run[0], run[2][0]))(nobody("buildifier-tree", "--mode=check")), (3, "b: cannot open"))
    place.expect("undo", nobody("buildozer-tree", "--state=state", "undo", *QUIET), (0, b"", []))
    place.expect("files", [(place.folder / name).read_bytes() for name in ("a/BUILD", "c/BUILD")], [ODD, ODD])
    (place.folder / "kept").chmod(0o555)
    status, _, err = nobody("buildozer-tree", "--state=kept", "--journal", "set size small", "//a:all")
    place.expect("a state of another user's", (status, err[0].endswith("kept/runs: Permission denied"), len(err)), (2, True, 1))


def many_words(place):
    """More than the system takes of a new process: fewer names at once, and at last lines of standard input."""
    long = "/".join(["n" * 200] * 4)
    files = {f"{long}/q{i}/BUILD": ODD for i in range(FEW)}
    place.put({"MODULE.bazel": b"", **files})
    place.environment["LONG"] = "x" * 80_000
    commands = [f"set size {'c' * 10_000}"]
    how = limited(STACK=512 << 10)
    place.expect("edit", place.run("buildozer-tree", "--processes=1", "--quiet", *commands, "//...:all", **how), (0, b"", [f"{FEW} files fixed"]))
    place.put(files)
    place.expect("formats", place.run("buildifier-tree", "--processes=1", **how), (0, b"", [f"{FEW} files reformatted, 1 left unchanged"]))


def no_place_for_files(place):
    """No temporary folder can be had: a line and a status."""
    place.put({"MODULE.bazel": b"", "a/BUILD": ODD})
    status, _, err = place.run("buildozer-tree", "set size small", "//a:all", **limited(FSIZE=0))
    place.expect("run", (status, len(err), err[0].startswith("buildozer-tree: No usable temporary directory")), (2, 1, True))


def closed_outputs(place):
    """Each of the three may be closed, and no file gets its place."""
    place.put({"MODULE.bazel": b"", "a/BUILD": ODD, "b/BUILD": EVEN})
    for closed, words, wanted in ((0, ["--mode=check"], 4), (1, ["--mode=check"], 3), (2, ["--mode=check"], 4), (1, [], 0)):
        shell = f'exec "$@" {closed}>&-' if closed else 'exec "$@" <&-'
        run = subprocess.run(["sh", "-c", shell, "sh", sys.executable, "-IS", TREE / "buildifier-tree", *words], cwd=place.folder, env=place.environment, capture_output=True, timeout=PATIENCE)
        place.expect(f"{closed} {words}", (run.returncode, b"Traceback" in run.stderr), (wanted, False))
    place.expect("files", place.files(), {"MODULE.bazel": b"", "a/BUILD": EVEN, "b/BUILD": EVEN})


def early_signals(place):
    """SIGINT ends a command also while it reads its own modules, with nothing printed of these; what Python prints before it reads the first is its own."""
    place.put({"MODULE.bazel": b"", "a/BUILD": ODD})
    for number in sample(range(40), 10):
        run = place.start("buildozer-tree", "runs")
        time.sleep(number / 250)
        run.send_signal(signal.SIGINT)
        err = run.communicate(timeout=PATIENCE)[1]
        place.expect(f"{number}", (run.returncode in (-signal.SIGINT, 1), err if b"kinduzar_tree" in err else b""), (True, b""))


def locks_that_wait(place):
    """A pipe in the place of a lock is refused; one that another process holds is waited for until a signal comes."""
    place.put({"MODULE.bazel": b"", "a/BUILD": ODD, "state/runs/none": b""})
    os.mkfifo(place.folder / "state/runs/lock")
    status, _, err = place.run("buildozer-tree", "--state=state", *SMALL)
    place.expect("a pipe", (status, len(err)), (2, 1))
    (place.folder / "state/runs/lock").unlink()
    with open(place.folder / "state/runs/lock", "w") as lock:
        import fcntl

        fcntl.flock(lock, fcntl.LOCK_EX)
        run = place.start("buildozer-tree", "--state=state", *SMALL)
        time.sleep(1)
        run.send_signal(signal.SIGTERM)
        place.expect("held", (run.communicate(timeout=SOON)[0], run.returncode), (b"", -signal.SIGTERM))
    place.expect("files", place.files()["a/BUILD"], ODD)


def long_differences(place):
    """Short lines without any that is there once are compared in time, and by a signal at once."""
    text = b"".join(b"x=%d\n" % (i % 7) + b"y = 1\n" * (i % 3) for i in range(7000 if not WHOLE else 70_000))
    place.put({"a/BUILD": text})
    before = time.monotonic()
    status, out, _ = place.run("buildifier-tree", "--mode=diff")
    place.expect("in time", (status, out[:24], time.monotonic() - before < SOON), (4, b"--- a/BUILD\n+++ a/BUILD\n", True))
    if shutil.which("patch"):
        subprocess.run(["patch", "-p0", "-s"], cwd=place.folder, input=out, check=True, timeout=PATIENCE)
        place.expect("patched", place.run("buildifier-tree", "--mode=check")[0], 0)
    place.put({"a/BUILD": text})
    (place.path / "diff").write_text("#!/bin/sh\nsleep 60\n")
    (place.path / "diff").chmod(0o755)
    run = place.start("buildifier-tree", "--mode=diff")
    time.sleep(1)
    before = time.monotonic()
    run.send_signal(signal.SIGTERM)
    run.communicate(timeout=PATIENCE)
    place.expect("a signal", (run.returncode, time.monotonic() - before < 20), (-signal.SIGTERM, True))


# ---- undo


# between what an undo lists and its step another run comes, once
MEANWHILE = """#!/bin/sh
case "$*" in
    *undo*q1:all*) [ -e "{mark}" ] || {{ touch "{mark}"; {program} --quiet --journal {commands} //p1/q1:all; }} ;;
esac
exec {program} "$@"
"""
TAKEN = "that run's text was taken for this one's, and is there again"


def an_undo_beside_another_run(place):
    """What another run does between the listing and the step is there after the undo, and is named; all else is taken back."""
    files = made(FEW)
    place.put({"MODULE.bazel": b"", **files})
    place.git("init", "-q")
    before = place.files()
    for commands in ("'set size large'", "'set size large' 'set size medium' 'set size small'"):
        place.run("buildozer-tree", *QUIET, *SMALL)
        mark = place.scratch / "mark"
        mark.unlink(missing_ok=True)
        place.replace("buildozer", MEANWHILE.format(mark=mark, program=place.programs["buildozer"], commands=commands))
        status, _, err = place.run("buildozer-tree", "undo", "--quiet")
        place.fast("buildozer")
        place.expect(f"{commands}: undo", (status, err[0]), (2, f"p1/q1/BUILD: left as it is: another run has changed it meanwhile; {TAKEN}"))
        steps = commands.count("set")
        listed = subprocess.run([place.programs["buildozer"], "--journal", "journal", f"undo {steps}", "//p1/q1:all"], cwd=place.folder, env=place.environment, capture_output=True, timeout=PATIENCE)
        place.expect(f"{commands}: its texts", [line[:1] for line in listed.stdout.splitlines()], [b" "] * (steps + 1) + [b"*"])
        place.wants_files(f"{commands}: taken back", {**before, "p1/q1/BUILD": place.files()["p1/q1/BUILD"]})
        place.expect(f"{commands}: the rest", place.run("buildozer-tree", "undo", *QUIET)[0], 0)
        place.wants_files(f"{commands}: all", before)
        for journal in place.folder.rglob("*.journal"):
            journal.unlink()


def texts_that_are_not_known(place):
    """A file of which the text after a run can't be read stays in the run, is named, and is named by the undo."""
    place.put({"MODULE.bazel": b"", **made(4)})
    place.git("init", "-q")
    before = place.files()
    script = '#!/bin/sh\n{0} "$@"; status=$?\ncase "$*" in *"set size"*q1:all*) [ -e kept ] || {{ mv p1/q1/BUILD kept && mkfifo p1/q1/BUILD; }} ;; esac\nexit $status\n'
    place.replace("buildozer", script.format(place.programs["buildozer"]))
    status, _, err = place.run("buildozer-tree", "--processes=1", *SMALL)
    place.expect("edit", (status, err[4]), (2, "p1/q1/BUILD: its text before this run, or after it, could not be read: an undo of the run says so, too"))
    place.fast("buildozer")
    status, _, err = place.run("buildozer-tree", "undo", "--quiet")
    place.expect("undo", (status, err[0]), (2, "p1/q1/BUILD: left as it is: it cannot be read"))
    os.replace(place.folder / "kept", place.folder / "p1/q1/BUILD")
    status, _, err = place.run("buildozer-tree", "undo", "1", "--quiet")
    place.expect("undo of it", (status, err[0]), (2, "p1/q1/BUILD: its text after run 1 was not known, and it went back by the commands that its journal has: look at it"))
    place.wants_files("taken back", before)


def runs_of_undo(place):
    """A run whose command is `undo` is taken back, and one of which the text before is gone keeps no earlier run from it."""
    place.put({"MODULE.bazel": b"", **made(4)})
    place.git("init", "-q")
    first = place.files()
    place.run("buildozer-tree", *QUIET, *SMALL)
    second = place.files()
    place.expect("undo as a command", place.run("buildozer-tree", *QUIET, "--journal", "undo", "//...:all"), (0, b"", []))
    place.wants_files("after it", first)
    place.expect("its undo", place.run("buildozer-tree", "undo", *QUIET), (0, b"", []))
    place.wants_files("taken back", second)
    place.expect("its redo", place.run("buildozer-tree", "redo", *QUIET), (0, b"", []))
    place.wants_files("done again", first)
    place.run("buildozer-tree", "undo", *QUIET)
    place.run("buildozer-tree", *QUIET, "--journal", "undo", "set size large", "//...:all")
    place.expect("one that is gone", place.run("buildozer-tree", "undo", "--quiet")[0], 2)
    status, _, err = place.run("buildozer-tree", "undo")
    place.expect("the next one", (status, err[-2].rpartition(": ")[2].split(",")[0] if len(err) > 1 else err), (2, "run 1"))


ODD_RECORDS = [
    {"number": "1"}, {"files": []}, {"files": {"a/BUILD": None}}, {"files": {"a/BUILD": ["x", None]}}, {"files": {"../out/BUILD": [None, None]}}, {"files": {"/etc/BUILD": [None, None]}},
    {"files": {"a/secret": [None, None]}}, {"state": 7}, {"time": None}, {"time": 1e300}, {"commands": 5}, {"left": ["../x/BUILD"]}, {"line": ["x"]}, {"root": 5}, {"more": 1}, {"last_then": -1},
]  # fmt: skip


def odd_records(place):
    """A record, or a number, that no run has written: a line and a status."""
    place.put({"MODULE.bazel": b"", "a/BUILD": ODD})
    place.git("init", "-q")
    place.run("buildozer-tree", *QUIET, *SMALL)
    record = place.folder / ".git/kinduzar/runs/000001.json"
    row, text = json.loads(record.read_text()), record.read_bytes()
    texts = [json.dumps({**row, **change}).encode() for change in ODD_RECORDS]
    texts += [b"\xff", b"[" * 100_000, b"9" * 100_000, b"[]", b"7", b'{"version": 2}', json.dumps({**row, "line": "a\nb\x1b"}).encode()]
    for odd in texts:
        record.write_bytes(odd)
        for words in (["undo"], ["redo"], ["runs"]) if WHOLE else (["runs"],):
            status, out, err = place.run("buildozer-tree", *words)
            place.expect(f"{odd[-60:]!r} {words}", (status != 1, [line for line in [*err, out.decode()] if "Traceback" in line or "\x1b" in line]), (True, []))
    record.unlink()
    for make in (os.mkfifo, lambda file: os.symlink("/dev/zero", file)):
        make(record)
        place.expect("no file", place.run("buildozer-tree", "undo")[0], 2)
        record.unlink()
    record.write_bytes(text)
    for word in ("\u00b2", "0", "9" * 5000):
        place.expect(f"undo {word[:9]}", (lambda run: (run[0], "Traceback" in "".join(run[2])))(place.run("buildozer-tree", "undo", word)), (1, False))
    place.expect("at last", place.run("buildozer-tree", "undo", *QUIET), (0, b"", []))


def another_locale(place):
    """A run of a locale that isn't UTF-8 is taken back in one that is."""
    made_locale = place.scratch / "locales"
    made_locale.mkdir()
    words = ["localedef", "-i", "en_US", "-f", "ISO-8859-1", str(made_locale / "en_US")]
    if not shutil.which("localedef") or subprocess.run(words, capture_output=True, timeout=PATIENCE).returncode > 1 or not (made_locale / "en_US").exists():
        SCENES.say("another locale: not run, since none can be made")
        return
    place.put({"MODULE.bazel": b"", "\u00fcml\u00e4ut/BUILD": ODD})
    place.git("init", "-q")
    before = place.environment
    place.environment = {**before, "LOCPATH": str(made_locale), "LC_ALL": "en_US", "LANG": "en_US"}
    place.expect("edit", (lambda run: (run[0], run[2][0]))(place.run("buildozer-tree", *SMALL)), (0, "fixed \u00fcml\u00e4ut/BUILD"))
    place.environment = before
    place.expect("undo", place.run("buildozer-tree", "undo", *QUIET), (0, b"", []))
    place.expect("file", place.files()["\u00fcml\u00e4ut/BUILD"], ODD)


def a_command_alone(place):
    """A command that was copied without its modules says so."""
    for command, status in (("buildifier-tree", 2), ("buildozer-tree", 1)):
        with tempfile.TemporaryDirectory() as folder:
            run = subprocess.run([sys.executable, shutil.copy(TREE / command, folder)], capture_output=True, text=True, timeout=PATIENCE)
        place.expect(command, (run.returncode, len(run.stderr.splitlines()), run.stderr.startswith(f"{command}: No module named 'kinduzar_tree'")), (status, 1, True))


FOREIGN = named(
    what_a_clone_brings, a_state_that_leads_outside, ignores_that_cannot_be_read, directories_that_are_ignored, endless_files, names_write_no_lines, names_that_begin_with_a_dash, trees_of_other_repositories, a_deep_tree,
    repositories_that_are_broken, roots_of_others, few_descriptors, few_processes, folders_that_are_closed, many_words, no_place_for_files, closed_outputs, early_signals,
    locks_that_wait, long_differences, an_undo_beside_another_run, texts_that_are_not_known, runs_of_undo, odd_records, another_locale, a_command_alone,
)  # fmt: skip
SCENES = Scenes(__file__, {name: with_git(scene, lambda what: SCENES.say(what)) for name, scene in FOREIGN.items()}, place=place)

if __name__ == "__main__":
    SCENES.main()
