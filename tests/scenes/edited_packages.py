#!/usr/bin/env python3
"""Runs the built program buildozer in small workspaces of its own, and looks at what it leaves there.

The engine over packages and files is proved; here it is seen that the files of the system are found, read and replaced as
it is said of them. Each run is compared with what must come: its status, both of its outputs, and the names and the bytes
of all files after it, so that what no command changes must be as it was, and nothing else may be left. Where the script
runs as root the program runs as nobody, since rights are nothing to root.

    tests/scenes/edited_packages.py PROGRAM
"""
import os
import resource
import subprocess

from lib.lines import COMMENT_HINT, NOT_UTF8, PACKAGE_HINT, TARGET_FORM, UNKEPT, UNKNOWN, fixed, lines_of
from lib.runs import copies, held_to
from lib.scenes import Scenes, named
from lib.workspaces import in_workspace

# A text of two rules without the layout, and what deleting one of them leaves of it.
ODD = b'f(name="x")\ng( name="y" )\n'
NO_X = b'g(name = "y")\n'
NO_Y = b'f(name = "x")\n'

# The same text with a dependency of its first rule.
DEPS_X = b'f(\n    name = "x",\n    deps = [":q"],\n)\n\ng(name = "y")\n'

# One package has BUILD.bazel, one has both names, of which BUILD.bazel is taken, and one has BUILD.
THREE = {"BUILD.bazel": ODD, "a/BUILD.bazel": ODD, "a/BUILD": ODD, "a/b/BUILD": ODD}
FOUND = ["BUILD.bazel", "a/BUILD.bazel", "a/b/BUILD"]
ALL_X = ["//:x", "//a:x", "//a/b:x"]


REFUSED = b"buildozer: BUILD.bazel: delete: NoTarget (41)\nbuildozer: no rule of BUILD.bazel has the name 'none'\n"
MISSING = b"none/BUILD: cannot open\n" + PACKAGE_HINT
# A run in the three packages for each row: its name, its words, its status, and what it leaves.
RUNS = [
    ("each package has its own file", ["delete", *ALL_X], 0, {"err": fixed(*FOUND), "after": dict.fromkeys(FOUND, NO_X)}),
    ("files are written in order of first use", ["delete", "//a/b:x", "//:y", "//a/b:y"], 0,
     {"err": fixed("a/b/BUILD", "BUILD.bazel"), "after": {"a/b/BUILD": b"", "BUILD.bazel": NO_Y}}),
    ("--quiet prints no file that was written", ["--quiet", "delete", *ALL_X], 0, {"after": dict.fromkeys(FOUND, NO_X)}),
    ("--quiet prints what is refused", ["--quiet", "delete", "//:x", "//:none"], 2, {"err": REFUSED, "after": {"BUILD.bazel": NO_X}}),
    ("--stdout gives texts in order of first use", ["--stdout", "delete", "//a/b:x", "//:y"], 0, {"out": NO_X + NO_Y}),
    ("--stdout leaves out what no command changed", ["--stdout", "set kind f", "//a:x", "//:y"], 0,
     {"out": NO_Y + b'\nf(name = "y")\n'}),
    ("the first failure ends a run, and what came before it is written", ["delete", "//:x", "//:none", "//a:x"], 2,
     {"err": REFUSED + fixed("BUILD.bazel"), "after": {"BUILD.bazel": NO_X}}),
    ("the first failure ends the commands of its target", ["delete", "undo 7", "new f z", "//a:x"], 2,
     {"err": b"buildozer: a/BUILD.bazel: undo 7: TooFar (61)\n" + UNKEPT + fixed("a/BUILD.bazel"), "after": {"a/BUILD.bazel": NO_X}}),
    ("-k goes on after a failure", ["-k", "delete", "//:x", "//:none", "//a:x"], 2,
     {"err": REFUSED + fixed("BUILD.bazel", "a/BUILD.bazel"), "after": {"BUILD.bazel": NO_X, "a/BUILD.bazel": NO_X}}),
    ("a missing package ends a run", ["delete", "//a:x", "//none:x", "//:x"], 2,
     {"err": MISSING + fixed("a/BUILD.bazel"), "after": {"a/BUILD.bazel": NO_X}}),
    ("-k passes over a missing package, which is reported once", ["-k", "print name", "delete", "//none:x", "//a:x"], 2,
     {"out": b"x\n", "err": MISSING + fixed("a/BUILD.bazel"), "after": {"a/BUILD.bazel": NO_X}}),
    ("two targets of one file are one session, written once", ["delete", "//a:x", "a:y"], 0,
     {"err": fixed("a/BUILD.bazel"), "after": {"a/BUILD.bazel": b""}}),
    ("a target of no package is the root's", ["delete", ":x"], 0, {"err": fixed("BUILD.bazel"), "after": {"BUILD.bazel": NO_X}}),
    ("what only prints leaves the files", ["print name kind", "//:all", "//a/b:x"], 3, {"out": b"x f\ny g\nx f\n"}),
    ("printed lines come before the texts", ["--stdout", "print name", "delete", "//a:x", "//:y"], 0, {"out": b"x\ny\n" + NO_X + NO_Y}),
    ("standard input that is only printed is left out", ["--", "print name", "-:all", "//a:all"], 3, {"out": b"x\ny\nx\ny\n", "text": ODD}),
    ("the text of standard input comes beside files that are written", ["--", "print name", "delete", "-:x", "//a:x"], 0,
     {"out": b"x\nx\n" + NO_X, "err": fixed("a/BUILD.bazel"), "after": {"a/BUILD.bazel": NO_X}, "text": ODD}),
    ("standard input has its place among the texts", ["--stdout", "--", "delete", "//a:y", "-:x"], 0, {"out": NO_Y + NO_X, "text": ODD}),
    ("lines of a file edit standard input", ["-f", "lines"], 0, {"lines": lines_of("delete|-:x", "print name|a:y"), "out": b"y\n" + NO_X, "text": ODD}),
    ("standard input is given back beside a file that fails", ["-k", "--", "set n 1", "undo", "-:x", "//none:x"], 2,
     {"out": ODD, "err": MISSING, "text": ODD}),
]

# A run over lines of standard input for each row: what a line does is there for the next one, which can take it back.
LINES = [
    ("lines of one file are one session", lines_of("delete|//a:x", "delete|a:y"), 0,
     {"err": fixed("a/BUILD.bazel"), "after": {"a/BUILD.bazel": b""}}),
    ("undo goes across lines", lines_of("delete|//a:x", "delete|a:y", "undo|//a:all"), 0,
     {"err": fixed("a/BUILD.bazel"), "after": {"a/BUILD.bazel": NO_X}}),
    ("undo of all lines leaves the file", lines_of("delete|//a:x", "delete|a:y", "undo 2|//a:all"), 3, {}),
    ("comments and empty lines are passed over", b"# delete|//a:y\n\n\ndelete|//a:x", 0,
     {"err": fixed("a/BUILD.bazel"), "after": {"a/BUILD.bazel": NO_X}}),
    ("a line that fails ends the run", lines_of("delete|//:x|//:none", "delete|//a:x"), 2,
     {"err": REFUSED + fixed("BUILD.bazel"), "after": {"BUILD.bazel": NO_X}}),
]

# Usage faults: the words, what is printed, and the lines of standard input. Of clap's own text only the beginning is compared.
FAULTS = [
    ([], b"buildozer: no command\n", b""),
    (["//a:x"], b"buildozer: no command\n", b""),
    (["delete"], b"buildozer: no target\n", b""),
    (["delete", "//a:x", "//a/:x"], b"buildozer: //a/:x: BadTarget (12)\n" + TARGET_FORM, b""),
    (["delete", "//a:x", "make it"], b"buildozer: make it: Unknown (31)\n" + UNKNOWN, b""),
    (["delete", "//a:x", "udno 2"], b"buildozer: udno 2: Unknown (31)\nbuildozer: did you mean 'undo'?\n", b""),
    (["fix unusedLoad", "//a:x"], b"buildozer: fix unusedLoad: Arguments (32)\nbuildozer: did you mean 'unusedLoads'?\n", b""),
    (
        ["add", "deps", ":a", "//a:x"],
        b"buildozer: add: Arguments (32)\nbuildozer: the form is 'add ATTR VALUE..'\n"
        b"buildozer: on a command line, put a command and its words in one pair of quotation marks\n",
        b"",
    ),
    (["help", "delete"], b"buildozer: help: Unknown (31)\nbuildozer: see buildozer --help, or man buildozer\n", b""),
    (["delete", "//a:x", "rename deps", "make it"], b"buildozer: rename deps: Arguments (32)\nbuildozer: the form is 'rename OLD NEW'\n", b""),
    (
        ["delete", "substitute deps a( x", "//a:x"],
        b"buildozer: substitute deps a( x: BadPattern (33)\nbuildozer: in the pattern, at byte 2: unclosed group\n",
        b"",
    ),
    (
        ["delete", "@r//a:x"],
        b"buildozer: @r//a:x: BadTarget (12)\nbuildozer: a target begins with no @: to edit another repository, run buildozer in its root\n",
        b"",
    ),
    (
        ["fix removeVisibility", "//a:x"],
        b"buildozer: fix removeVisibility: Arguments (32)\nbuildozer: the form is 'fix [unusedLoads] [movePackageToTop]'\n"
        b"buildozer: there is no other fix here: buildifier puts lists in order and shortens labels\n",
        b"",
    ),
    (["-f", "lines", "//a:x"], b"buildozer: operands beside -f\n", b""),
    (["-f", "none"], b"none: cannot open\n", b""),
    (["-f", "a"], b"a: cannot open\n", b""),
    (["-f", "odd"], b"odd: NotUtf8 at 13\n" + NOT_UTF8, b""),
    (["-f", "comments"], b"comments: no operands\n", b""),
    (["-f", "-"], b"<stdin>: no operands\n", b""),
    (["-f", "-"], b"<stdin>: NotUtf8 at 13\n" + NOT_UTF8, b"delete|//a:x\n\xff"),
    (["-f", "-"], b"buildozer: package - cannot be edited beside -f -\n", lines_of("delete|//a:x", "delete|-:x")),
    (["-f", "-"], b"buildozer: no target\n<stdin>:2: refused\n", lines_of("delete|//a:x", "delete")),
    (["-f", "-"], b"buildozer: : Unknown (31)\n" + UNKNOWN + b"<stdin>:2: refused\n", lines_of("delete|//a:x", "delete||//a:x")),
    (["--journal", "--stdout", "delete", "//a:x"], b"buildozer: --stdout beside --journal\n", b""),
    (["--journal", "--", "delete", "-:x"], b"buildozer: package - has no journal\n", b"x()\n"),
    (["--none", "delete", "//a:x"], b"error: unexpected argument '--none' found\n", b""),
    (["-k", "-k", "delete", "//a:x"], b"error: the argument '-k' cannot be used multiple times\n", b""),
    (["delete", "//a:x", "--help"], b"Applies commands to the rules of BUILD files.\n", b""),
]


def a_hundred_lines(w):
    """Lines over all packages, in a file and in standard input; what they make is in the order of the lines."""
    kinds = ["//:x", "a:x", "//a/b:all"]
    lines = ["# a comment|//none:x", ""]
    for i in range(100):
        lines += [f"new f n{i}|{kinds[i % 3]}", "", f"#delete|{kinds[i % 3]}"]
    script = lines_of(*lines)
    made = [[f'f(name = "n{i}")'.encode() for i in range(100) if i % 3 == k] for k in range(3)]
    texts = [b"\n\n".join([NO_Y.strip(), NO_X.strip(), *some]) + b"\n" for some in made]
    after = dict(zip(FOUND, texts))
    shown = w.leaves(["--stdout", "-f", "-"], 0, out=b"".join(texts), text=script)
    written = w.leaves(["-f", "lines"], 0, err=fixed(*FOUND), after=after, lines=script)
    return shown and written


def an_unchanged_file_is_not_written(w):
    """Neither where a command finds nothing to do, nor where undo gives back what was read."""
    files = [w.path / name for name in FOUND]
    before = [(file.stat().st_ino, file.stat().st_mtime_ns) for file in files]
    found = w.leaves(["remove deps", "delete", "undo", *ALL_X], 3)
    return found and before == [(file.stat().st_ino, file.stat().st_mtime_ns) for file in files]


def permission_bits_stay(w):
    """Also those of a file that nobody may write, since it is replaced by another one."""
    modes = [0o600, 0o444, 0o755]
    for name, mode in zip(FOUND, modes):
        (w.path / name).chmod(mode)
    kept = w.leaves(["delete", *ALL_X], 0, err=fixed(*FOUND), after=dict.fromkeys(FOUND, NO_X))
    return kept and [(w.path / name).stat().st_mode & 0o7777 for name in FOUND] == modes


def a_closed_folder_is_told(w):
    """Where no file may be made the file stays, and the others are written."""
    (w.path / "a").chmod(0o555)
    err = fixed("BUILD.bazel") + b"a/BUILD.bazel: cannot write\n" + fixed("a/b/BUILD")
    told = w.leaves(["delete", *ALL_X], 2, err=err, after={"BUILD.bazel": NO_X, "a/b/BUILD": NO_X})
    (w.path / "a").chmod(0o755)
    return told


def an_unreadable_file_is_told(w):
    """The second name is taken where the first can't be read, and the run goes on; where none can be, it ends."""
    (w.path / "a/BUILD.bazel").chmod(0)
    (w.path / "a/b/BUILD").chmod(0)
    err = b"a/BUILD.bazel: cannot open\na/b/BUILD: cannot open\n" + fixed("a/BUILD")
    return w.leaves(["delete", "//a:x", "//a/b:x", "//:x"], 2, err=err, after={"a/BUILD": NO_X})


def a_folder_for_the_first_name_is_told(w):
    """The run goes on with the second name and with the targets after it, and its status says so."""
    (w.path / "a/b/BUILD.bazel").mkdir()
    err = b"a/b/BUILD.bazel: cannot open\n" + fixed("a/b/BUILD", "BUILD.bazel")
    return w.leaves(["delete", "//a/b:x", "//:x"], 2, err=err, after={"a/b/BUILD": NO_X, "BUILD.bazel": NO_X})


def a_folder_for_the_second_name_is_told(w):
    (w.path / "c/BUILD").mkdir(parents=True)
    return w.leaves(["delete", "//c:x", "//:x"], 2, err=b"c/BUILD: cannot open\n")


def a_link_becomes_a_file(w):
    """It is replaced by a rename, and what it names stays."""
    link = w.path / "c/BUILD"
    link.parent.mkdir()
    link.symlink_to("../a/BUILD")
    changed = w.leaves(["delete", "//c:x"], 0, err=fixed("c/BUILD"), after={"c/BUILD": NO_X})
    return changed and not link.is_symlink()


def a_left_file_is_written_over(w):
    """What an earlier run left under the new name goes, also where nobody may write it."""
    left = w.path / "a/BUILD.bazel.bznew"
    left.write_bytes(b"left")
    left.chmod(0o400)
    ended = w.ended(["delete", "//a:x"])
    return ended == (0, b"", fixed("a/BUILD.bazel")) and w.left() == {**THREE, "a/BUILD.bazel": NO_X}


def a_file_by_a_second_path_keeps_the_first_edit(w):
    """It is opened by each path, and what was written by the first one is not what was read by the second, which is reported."""
    (w.path / "BUILD.bazel").rename(w.path / "BUILD")
    return w.leaves(["add deps :q", "//:x", "//.:y"], 2, err=fixed("BUILD") + b"./BUILD: cannot write\n", after={"BUILD": DEPS_X})


# Files that may not be edited, where they are named in the place of a package, and why.
UNEDITED = {
    "a/BUILD": b"the file of //a is its BUILD.bazel",
    "a/BUILD.bazel.journal": b"no journal is edited, and no new file that waits to be renamed",
    "a/BUILD.bazel.bznew": b"no journal is edited, and no new file that waits to be renamed",
    "a/rules.bzl": b"a .bzl file is not edited: to format it, see buildifier",
}


def files_in_the_place_of_packages(w):
    """A file may be named so, and its labels are those of its folder. The file of a package is that package, in either order, also in a later run."""
    (w.path / "third_party").mkdir()
    for name in ("MODULE.bazel", "third_party/zlib.BUILD", *list(UNEDITED)[1:]):
        (w.path / name).write_bytes(ODD)
    runs = [w.leaves(["--quiet", "delete", "//MODULE.bazel:x"], 0, after={"MODULE.bazel": NO_X})]
    runs.append(w.leaves(["add deps //third_party:q", "//third_party/zlib.BUILD:x"], 0, err=fixed("third_party/zlib.BUILD"), after={"third_party/zlib.BUILD": DEPS_X}))
    for one, other in (("//a/b", "//a/b/BUILD"), ("//a/b/BUILD", "//a/b")):
        runs.append(w.leaves(["delete", f"{one}:x", f"{other}:y"], 0, err=fixed("a/b/BUILD"), after={"a/b/BUILD": b""}))
        (w.path / "a/b/BUILD").write_bytes(ODD)
    ended = w.ended(["--journal", "delete", "//a/b/BUILD:x", "//a/b:y"])
    runs.append(ended == (0, b"", fixed("a/b/BUILD")) and b"\npackage 3 a/b\n" in w.left()["a/b/BUILD.journal"])
    runs.append(w.ended(["--journal", "undo 2", "//a/b:all"])[0] == 0 and w.left()["a/b/BUILD"] == ODD)
    for name, why in UNEDITED.items():
        runs.append(w.leaves(["-k", "delete", f"//{name}:x", f"//{name}:y"], 2, err=b"%s: cannot open\nbuildozer: %s\n" % (name.encode(), why)))
    return all(runs)


def a_refused_text_is_told(w):
    """Its place is reported, it stays, and with -k the others are edited."""
    (w.path / "a/b/BUILD").write_bytes(b'f(name="x")\ng(\n')
    err = b"a/b/BUILD:3:1: Unexpected\n    \n    ^ the end of the file\n    inside the '(' at 2:2\n" + fixed("a/BUILD.bazel")
    return w.leaves(["-k", "delete", "//a/b:x", "//a:x"], 2, err=err, after={"a/BUILD.bazel": NO_X})


def the_root_above_is_told(w):
    """Where it is among the folders above; neither where the run is in it, nor by a folder of such a name, nor over standard input alone."""
    (w.path / "c/d").mkdir(parents=True)
    (w.path / "c/d/BUILD").write_bytes(b'f(name="z")\n')
    runs = []
    for name, kind, below in (("MODULE.bazel", "file", b"../../"), ("c/WORKSPACE", "file", b"../"), ("c/d/REPO.bazel", "folder", b"../"), ("c/d/REPO.bazel", "file", b"")):
        mark = w.path / name
        mark.mkdir() if kind == "folder" else mark.write_bytes(b"")
        note = b"buildozer: note: the root of the workspace is %s, and packages are those below the working directory\n" % below if below else b""
        for words, text, wanted in ((["delete", "//none:x"], None, (2, b"", note + MISSING)), (["print name", ":z", ":z"], None, (3, b"z\nz\n", note)),
                (["--", "print name", "-:y", ":z"], b'f(name="y")\n', (3, b"y\nz\n", note)), (["--", "print name", "-:y"], b'f(name="y")\n', (3, b"y\n", b""))):
            run = subprocess.run([w.program, *words], cwd=w.path / "c/d", input=text, capture_output=True)
            runs.append((run.returncode, run.stdout, run.stderr) == wanted)
        if kind == "folder":
            mark.rmdir()
    return all(runs)


def a_usage_fault_leaves_all(w):
    (w.path / "lines").write_bytes(lines_of("delete|//a:x"))
    (w.path / "odd").write_bytes(b"delete|//a:x\n\xff\n")
    (w.path / "comments").write_bytes(lines_of("# delete|//a:x", ""))
    return all([w.leaves(words, 1, err=err, text=text, begins=b"buildozer" not in err) for words, err, text in FAULTS])


# A MODULE.bazel as projects have it, laid out, and lines of commands on it with what each has the text become.
MODULE = b"""\
# Licensed as the rest is.

module(
    name = "words",
    compatibility_level = 1,
    version = "2024-07-02",
)

bazel_dep(
    name = "platforms",
    version = "0.0.10",
)

# Until the toolchain is found by itself.
cc_configure = use_extension("@bazel_tools//tools/cpp:cc_configure.bzl", "cc_configure_extension")

use_repo(cc_configure, "local_config_cc")  # ours
"""
EXTENSION = "@bazel_tools//tools/cpp:cc_configure.bzl cc_configure_extension"
EDITS_OF_MODULE = [
    (f"use_repo_add {EXTENSION} local_config_cc local_config_cc_toolchains", "all", b'"local_config_cc")', b'"local_config_cc", "local_config_cc_toolchains")'),
    ("set version 2024-08-01", "words", b'"2024-07-02"', b'"2024-08-01"'),
    ("use_repo_remove cc_configure local_config_cc", "all", b'"local_config_cc", ', b""),
]


def a_module_file_is_edited_and_taken_back(w):
    """Each command changes its place alone, and all are taken back byte for byte by a later run."""
    file, text = w.path / "MODULE.bazel", MODULE
    file.write_bytes(text)
    runs = []
    for command, which, old, new in EDITS_OF_MODULE:
        text = text.replace(old, new)
        runs.append(w.ended(["--journal", command, f"//MODULE.bazel:{which}"]) == (0, b"", fixed("MODULE.bazel")) and file.read_bytes() == text)
    runs.append(w.ended(["--journal", "new bazel_dep rules_cc", "set version 0.0.9", "//MODULE.bazel:rules_cc"])[0] == 0)
    runs.append(file.read_bytes() == text + b'\nbazel_dep(\n    name = "rules_cc",\n    version = "0.0.9",\n)\n')
    runs.append(w.ended(["--journal", "undo 5", "//MODULE.bazel:all"])[0] == 0 and file.read_bytes() == MODULE)
    return all(runs)


GROWN = b"buildozer: the file would have more than 67,108,864 bytes\n"
NO_ATTRIBUTE = b"buildozer: the rule has no such attribute, or the attribute no such value\n"
NO_LIST = b"buildozer: the value is no list\n"

# how much memory a run may take that is refused as too large, in bytes
REFUSED_WITHIN = 1 << 30


def refuses_within(w, command, text, refusal, addresses=REFUSED_WITHIN, rule=b""):
    """A command on all rules of a file is refused within this memory and these addresses, and the file stays; the rule is told that refuses
    it, or that the file would be too large. What it says of others goes to `wrong`."""
    (w.path / "d").mkdir(exist_ok=True)
    (w.path / "d/BUILD").write_bytes(text)
    how = {"cwd": w.path, "stdout": subprocess.PIPE, "stderr": subprocess.PIPE, "preexec_fn": held_to(resource.RLIMIT_AS, addresses)}
    with subprocess.Popen([w.program, command, "//d:all"], **how) as run:
        err, out = run.stderr.read(), run.stdout.read()
        _, status, used = os.wait4(run.pid, 0)
        run.returncode = os.waitstatus_to_exitcode(status)
    told = b"buildozer: d/BUILD: %s: %s\n" % (command.encode(), refusal) + (rule or GROWN)
    if (run.returncode, out, err) != (2, b"", told) or (w.path / "d/BUILD").read_bytes() != text:
        w.wrong.append(f"{command[:20]}: {run.returncode}, {err[-60:]}, and not {refusal}")
    if used.ru_maxrss * 1024 > REFUSED_WITHIN:
        w.wrong.append(f"{command[:20]}: {used.ru_maxrss} KiB of memory")


def refusing(line):
    """What is said of a rule `z` on this line that refuses a command."""
    return b"buildozer: d/BUILD:%d: the rule 'z' refuses it\n" % line


def copies_of_a_comment_past_the_limit(w):
    """They are made one by one: 4.5 GB of them are refused within 1 GB. A rule that refuses comes first, also after many that don't."""
    rules = b"".join(b'f(name = "r%06d", k = [])\n' % number for number in range(75_000))
    long = "c" * 60_000
    refuses_within(w, f"comment {long}", rules, b"TooLarge (21)")
    refuses_within(w, f"comment k {long}", rules, b"TooLarge (21)")
    refuses_within(w, f"comment k {long}", rules + b'f(name = "z")\n', b"NoAttribute (42)", rule=refusing(75_001) + NO_ATTRIBUTE + COMMENT_HINT)
    return not w.wrong


def words_past_the_limit_in_each_rule(w):
    """So are those of other commands: 1.2 GB of words, and with fewer rules other ways in which words get there, are refused within 1 GB. A
    rule that refuses comes first, also after those that are past the limit."""
    rules = [b'f(name = "r%05d", tags = ["a"], k = {})\n' % number for number in range(20_000)]
    some, long = rules[:2_500], "c" * 60_000
    refuses_within(w, f"set tags {long}", b"".join(rules), b"TooLarge (21)")
    for command in ("set kind", "add tags", "replace tags a", "set_if_absent deps", "dict_add k key:"):
        refuses_within(w, f"{command} {long}".replace(": ", ":"), b"".join(some), b"TooLarge (21)")
    refuses_within(w, "set kind " + ".".join(["k" * 59] * 1_000), b"".join(some), b"TooLarge (21)")
    refuses_within(w, "set tags " + " ".join(f"c{number:05d}" for number in range(9_000)), b"".join(some[:1_000]), b"TooLarge (21)")
    first = b'f(name = "first", deps = [%s])\n' % b", ".join(b'"c%05d"' % number for number in range(7_000))
    refuses_within(w, "copy deps first", b"".join([first, *some]), b"TooLarge (21)")
    refuses_within(w, f"add tags {long}", b"".join([*some, b'f(name = "z", tags = 1)\n']), b"NotAList (44)", rule=refusing(2_501) + NO_LIST)
    return not w.wrong


def a_match_that_grows_past_the_limit(w):
    """A command and a text of 60 KB in all make one string of 406 MB. What grows by doubling takes addresses that it never writes to."""
    command = "substitute srcs a+ " + "$0" * 14_000
    refuses_within(w, command, b'f(name = "r", srcs = ["%s"])\n' % (b"a" * 29_000), b"TooLarge (21)", REFUSED_WITHIN + (1 << 28))
    return not w.wrong


# how many lines a run has in which a cost that grows faster than they do would be seen
MANY = range(4000)


def leaves_within(w, seconds, lines, text, wanted, out=b""):
    """A run of many lines leaves this text within so much of the processor's time, and prints this. What it does else goes to `wrong`. The
    seconds are fewer than each run took when nothing was kept from one command to the next: 11.6, 3.5 to 8.7, 9.0 and 2.7."""
    (w.path / "d").mkdir(exist_ok=True)
    (w.path / "d/BUILD").write_bytes(text)
    how = {"cwd": w.path, "capture_output": True, "preexec_fn": held_to(resource.RLIMIT_CPU, seconds)}
    run = subprocess.run([w.program, "-f", "-"], input=lines_of(*lines), **how)
    left = run.returncode, run.stdout, run.stderr, (w.path / "d/BUILD").read_bytes()
    if left != ((3, out, b"", text) if text == wanted else (0, out, fixed("d/BUILD"), wanted)):
        w.wrong.append(f"{lines[0]}: {run.returncode}, {run.stderr[-60:]}")


def thousands_of_items_added_to_one_list(w):
    items = b"".join(b'        ":v%04d",\n' % number for number in MANY)
    lines = [f"add deps :v{number:04}|//d:r" for number in MANY]
    leaves_within(w, 10, lines, b'f(name = "r")\n', b'f(\n    name = "r",\n    deps = [\n%s    ],\n)\n' % items)
    return not w.wrong


def thousands_of_rules_named_by_their_lines(w):
    old, new = (b"\n".join(b'f(name = "%s%04d")\n' % (name, number) for number in MANY) for name in (b"r", b"s"))
    leaves_within(w, 3, [f"set name s{number:04}|//d:%{2 * number + 1}" for number in reversed(MANY)], old, new)
    return not w.wrong


def thousands_of_files_loaded(w):
    loads = b"".join(b'load("//:d%04d.bzl", "s")\n' % number for number in MANY)
    leaves_within(w, 3, [f"new_load //:d{number:04}.bzl s|//d:__pkg__" for number in MANY], b'f(name = "r")\n', loads + b'\nf(name = "r")\n')
    return not w.wrong


def thousands_of_lines_printed_of_a_short_file(w):
    text = b"\n".join(b'f(name = "r%02d")\n' % number for number in range(99))
    names = [f"r{number % 99:02}" for number in MANY]
    leaves_within(w, 2, [f"print name|//d:{name}" for name in names], text, text, lines_of(*names))
    return not w.wrong


def a_run(words, status, left):
    return lambda w: w.leaves(words, status, **left)


EDITS = {name: a_run(words, status, left) for name, words, status, left in RUNS}
EDITS |= {name: a_run(["-f", "-"], status, {**left, "text": text}) for name, text, status, left in LINES}
EDITS |= named(
    a_hundred_lines, an_unchanged_file_is_not_written, permission_bits_stay, a_closed_folder_is_told, an_unreadable_file_is_told,
    a_folder_for_the_first_name_is_told, a_folder_for_the_second_name_is_told, a_link_becomes_a_file, a_left_file_is_written_over,
    a_file_by_a_second_path_keeps_the_first_edit, files_in_the_place_of_packages, a_module_file_is_edited_and_taken_back, a_refused_text_is_told, the_root_above_is_told, a_usage_fault_leaves_all, copies_of_a_comment_past_the_limit,
    words_past_the_limit_in_each_rule, a_match_that_grows_past_the_limit, thousands_of_items_added_to_one_list,
    thousands_of_rules_named_by_their_lines, thousands_of_files_loaded, thousands_of_lines_printed_of_a_short_file,
)  # fmt: skip
SCENES = Scenes(__file__, EDITS, copies, in_workspace(THREE))

if __name__ == "__main__":
    SCENES.main()
