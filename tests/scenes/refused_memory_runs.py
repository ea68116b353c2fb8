#!/usr/bin/env python3
"""Runs the built programs with memory refused at each request in turn, and looks at what they leave.

A small library of C (lib/preloaded/refused.c), which is between a program and the C library, refuses the k-th request for memory: that one
alone, and that one and each one after it; for k = 1, 2, .. until a run meets no refusal. Whatever k is, no run may end by a
signal, and each must leave what ample memory gives, or what its row allows beside that: the answer in which a command was
refused memory, which changes nothing. So the rows show of the programs what is proved of the session: an undo or redo over a step
whose edits hold as many parts as they cover takes no memory, whatever else is refused, since no such answer is allowed there.

Runs over three files are refused memory too, with journals and without: each file and each journal is as it was or as ample memory leaves it, and
the next run, with ample memory, leaves what one alone does.

Beside them are the rows that both programs were worked out by (lib/worked_rows.py). What each of these may leave is found by runs with
ample memory: of all its commands, and of some of them only, since one that is refused memory changes nothing. Of some rows some
requests are refused; with HOSTILE=whole in the environment, each request of each row.

    [HOSTILE=whole] tests/scenes/refused_memory_runs.py BUILDOZER CASES BUILDIFIER

Where there is no C compiler the script says so, and nothing is tried.
"""
import collections
import itertools
import re

from lib import worked_rows
from lib.lines import FEWER, refusal_of, too_far
from lib.refused_memory import MOST, Left, refusing
from lib.scenes import WHOLE, Scenes, different, sample
from lib.stopped_runs import FAILED

# Of how many worked rows requests are refused, how many of each, and of the rows of long texts, where only a sample is wanted; of the
# rows of long texts the whole is these first requests too.
SAMPLE_OF_ROWS = 24
SAMPLE_OF_REQUESTS = 10
LONG_REQUESTS = 100

# A run: the program with its words and standard input, what ample memory answers, and the other answers, each of which must
# come where some request alone is refused. Where each request from some one on is refused nothing can be written, and the lines
# on standard error are those of one of these answers, or of `onward`.
Row = collections.namedtuple("Row", "program words text ample others onward", defaults=[[]])


def refused(*commands):
    return b"".join(refusal_of(command, "Memory (8)") for command in commands)


# ---- texts, and answers on the sheet of cases

X = b't(\n    name = "a",\n    deps = [":x"],\n)\n'
Y = X.replace(b":x", b":y")
XZ = b't(\n    name = "a",\n    deps = [\n        ":x",\n        ":z",\n    ],\n)\n'
XYZ = XZ.replace(b'        ":z"', b'        ":y",\n        ":z"')
UNREAD = b"<stdin>: Memory\n"

ACTIONS = "> set deps :y -:a\n& undo 1\n& redo 1\n& undo 1\n"


def lines_of(text, mark):
    """A text as it is on the sheet."""
    return mark + " " + text.decode().replace("\n", "\n| ").removesuffix("| ") + "|\n"


def sheet(question, *answers):
    """The sheet with the question of these actions, and the answers after it."""
    return (f"{question} -\n{ACTIONS}{lines_of(X, '&')}" + "".join(answers)).encode()


MOVED = "= Changed\n= Moved\n= Moved\n= Moved\n= 0 of 1 steps\n" + lines_of(X, "<")
NOT_MOVED = "= 8 Memory\n= 61 TooFar\n= 61 TooFar\n= 61 TooFar\n= 0 of 0 steps\n" + lines_of(X, "<")

MISSING = refusal_of("print", "NoTarget (41)") + b"buildozer: no rule of <stdin> has the name 'a'\n"

# ---- the rows

ROWS = {
    # one token is exchanged for one, so neither undo nor redo takes memory: only the command before them may be refused any
    "an undo that takes none": Row(
        "buildozer", ["--", "set deps :y", "undo", "-:a"], X, Left(3, X),
        [Left(2, X, refused("set deps :y"))],
    ),
    "undo and redo that take none": Row(
        "buildozer", ["-k", "--", "set deps :y", "undo", "redo", "-:a"], X, Left(0, Y),
        # where standard input was not read for the first command it is read for the next one
        [Left(2, X, refused("set deps :y") + too_far("undo") + too_far("redo")), Left(2, X, UNREAD + too_far("undo") + too_far("redo"))],
    ),
    "a session's undo and redo that take none": Row("cases", [], sheet("session"), Left(0, sheet("session", MOVED)), [Left(0, sheet("session", NOT_MOVED))]),
    "the step of an undo that takes none": Row("cases", [], sheet("weights"), Left(0, sheet("weights", "= 4\n")), [Left(0, sheet("weights"))]),
    # an item comes in between, where nothing is covered: going over that may be refused memory, and then stays where it is
    "undo and redo that take some": Row(
        "buildozer", ["-k", "--", "add deps :y", "undo", "redo", "-:a"], XZ, Left(0, XYZ),
        [
            Left(2, XZ, refused("add deps :y") + too_far("undo") + too_far("redo")),
            Left(2, XYZ, refused("undo") + too_far("redo")),
            Left(2, XZ, refused("redo")),
            Left(2, XZ, UNREAD + too_far("undo") + too_far("redo")),
        ],
    ),
    "a printed line that is refused": Row(
        "buildozer", ["-k", "--", "print deps", "delete", "print", "-:a"], X, Left(2, b"[:x]\n", MISSING),
        [
            Left(2, b"", refused("print deps") + MISSING),
            Left(2, b"[:x]\na t\n" + X, refused("delete")),
            # the last command looks at a file of no rules, of which the value has room for one item
            Left(2, b"[:x]\n", refused("print")),
            # the line below it is not told
            Left(2, b"[:x]\n", refusal_of("print", "NoTarget (41)")),
            Left(2, b"", UNREAD + MISSING),
        ],
        [refused("print deps", "delete", "print"), refused("delete", "print"), refused("print")],
    ),
}  # fmt: skip


def may_be_left(row):
    """What a run may leave besides: nothing was done, or what was done could not be written."""
    if row.program == "cases":
        return [Left(1, b"", None)]
    told = [left.err for left in [row.ample, *row.others]] + row.onward
    unread = [UNREAD * count for count in range(1, len(row.words))]
    unwritten = [lines + b"<stdout>: Memory\n" for lines in told]
    return [Left(2, b"", err) for err in [b"buildozer: Memory\n", *unread, *unwritten]]


# ---- running


def is_one_of(left, allowed):
    return left in allowed or left._replace(err=None) in allowed


def faults(refusing, row):
    """What is wrong in the runs of a row."""
    allowed = [row.ample, *row.others, *may_be_left(row)]
    alone, onward = refusing.sweep(row, ""), refusing.sweep(row, "-")
    wrong = [f"{name} refused: {left}" for name, left in alone + onward if not is_one_of(left, allowed)]
    wrong += [f"with ample memory: {found[-1]}" for found in (alone, onward) if found[-1][1] != row.ample]
    met = [left for _, left in alone]
    return wrong + [f"no refusal gave {other}" for other in row.others if other not in met]


# ---- the worked rows

# a line that says that memory was refused; one that may come after it; and the status of a run in which it was
MEMORY = re.compile(rb"(?:buildozer|buildifier): Memory|[^\n]*: (?:Memory|Memory \(8\)|cannot write)")
FOLLOWING = re.compile(rb"buildozer: (?:[^\n]*: (?:TooFar \(61\)|NoTarget \(41\))|no rule of [^\n]*)|" + re.escape(FEWER.strip()))


def is_command(row, place):
    """Whether the word at the place is a command of buildozer."""
    word = row.words[place]
    is_target = " " not in word and (":" in word or word.startswith("//"))
    return row.program == "buildozer" and "-f" not in row.words and not is_target and not word.startswith("-")


def with_fewer_commands(row):
    """The row, and the same row without some of its commands; of lines of operands, without some lines."""
    commands = [place for place in range(len(row.words)) if is_command(row, place)]
    gone = [set(places) for count in range(max(len(commands), 1)) for places in itertools.combinations(commands, count)]
    fewer = [row._replace(words=[word for place, word in enumerate(row.words) if place not in left_out]) for left_out in gone]
    return fewer + ([row._replace(text=row.text.replace(b"add deps :y|//p:a\n", b""), files={**row.files, "cmds": b"delete|//p:zz\n"})] if "-f" in row.words else [])


class Allowed:
    """What a worked row may leave."""

    def __init__(self, refusing, row):
        # a refusal that is never met: this run and the others have ample memory
        runs = [refusing.over_files(fewer, str(MOST))[:2] for fewer in with_fewer_commands(row)]
        self.row = row
        self.ample, self.after = runs[0]
        self.known = {line for left, _ in runs for line in left.err.splitlines()}
        printed = self.ample.out.splitlines(keepends=True)
        texts = {b"", row.text, *(left.out for left, _ in runs)}
        self.outs = {b"".join(printed[:count]) + text for count in range(len(printed) + 1) for text in texts}
        # a journal that is begun is no file of the row
        names = {*row.files, *(name for _, after in runs for name in after)}
        self.files = {name: [row.files.get(name), *(after.get(name) for _, after in runs)] for name in names}

    def lacks_help(self, left, files):
        """Whether all is as with ample memory, but that lines which help are not there below the one that they help with."""
        is_short = left.err.endswith(b"\n") and self.ample.err.startswith(left.err) and self.ample.err[len(left.err) :].startswith(self.row.program.encode() + b": ")
        return is_short and (left._replace(err=b""), files) == (self.ample._replace(err=b""), self.after)

    def wrong(self, left, files):
        """What is wrong with what a run left; where memory was refused that must be reported, with the status of it."""
        if (left, files) == (self.ample, self.after) or self.lacks_help(left, files):
            return []
        found = [f"the file {name}: {files.get(name)!r}" for name in {*files, *self.files} if files.get(name) not in self.files.get(name, [])]
        lines = left.err.splitlines()
        told = [line for line in lines if MEMORY.fullmatch(line) and line not in self.ample.err.splitlines()]
        if left.status != FAILED[self.row.program] or not told:
            found.append(f"status {left.status}, and reported is {left.err!r}")
        found += [f"the line {line}" for line in lines if line not in self.known and not MEMORY.fullmatch(line) and not FOLLOWING.fullmatch(line)]
        return found + ([] if left.out in self.outs else [f"standard output {left.out!r}"])


def worked_faults(refusing, row, most):
    """What is wrong in the runs of a worked row, of which at most so many requests are refused."""
    allowed, found = Allowed(refusing, row), []
    if allowed.ample.status != row.status:
        found.append(f"status {allowed.ample.status} with ample memory, and not {row.status}")
    numbers = range(1, min(refusing.requests(row), most) + 1)
    if not numbers:
        found.append("no request was seen, so none was refused")
    for mark in ("", "-"):
        for number in sample(numbers, SAMPLE_OF_REQUESTS):
            left, files, _ = refusing.over_files(row, f"{number}{mark}")
            found += [f"request {number}{mark} refused: {fault}" for fault in allowed.wrong(left, files)]
    return found


# ---- three files

PACKAGES = "abc"
THREE = {f"{package}/BUILD": b't(name="a",deps=[])\n' for package in PACKAGES}
EDIT = ["add deps :y", *(f"//{package}:a" for package in PACKAGES)]
OVER_THREE = {
    "an edit": worked_rows.Row("buildozer", ["-k", *EDIT], b"", THREE),
    "an edit that ends at a failure": worked_rows.Row("buildozer", EDIT, b"", THREE),
    "an edit with journals": worked_rows.Row("buildozer", ["--journal", "-k", *EDIT], b"", THREE),
    "a format": worked_rows.Row("buildifier", [*THREE], b"", THREE),
}


def over_three_files(row):
    """Each file, and each journal, is as it was or as ample memory leaves it, and the next run, with ample memory, does the rest."""

    def scene(refusing):
        allowed, count = Allowed(refusing, row), refusing.requests(row)
        wrong = [] if count else ["no request was seen, so none was refused"]
        for mark in ("", "-"):
            for number in sample(range(1, count + 1), SAMPLE_OF_REQUESTS):
                left, files, _ = refusing.over_files(row, f"{number}{mark}")
                wrong += [f"request {number}{mark} refused: {fault}" for fault in allowed.wrong(left, files)]
                after, files, _ = refusing.over_files(row._replace(files=files), str(MOST))
                # where all was done there is nothing left to do
                wrong += different(f"what goes on after request {number}{mark}", (after.status in (0, 3), files), (True, allowed.after))
        return wrong

    return scene


def a_row(row):
    return lambda refusing: faults(refusing, row)


def a_worked_row(row, most=MOST):
    return lambda refusing: worked_faults(refusing, row, most)


def scenes():
    found = {name: a_row(row) for name, row in ROWS.items()}
    names = dict.fromkeys([*sample(worked_rows.ROWS, SAMPLE_OF_ROWS), *worked_rows.KEPT_ROWS])
    found |= {f"worked out: {name}": a_worked_row(worked_rows.ROWS[name]) for name in names}
    found |= {f"three files, {name}": over_three_files(row) for name, row in OVER_THREE.items()}
    if WHOLE:
        found |= {f"worked out: {name}": a_worked_row(row, LONG_REQUESTS) for name, row in worked_rows.LONG_ROWS.items()}
    return found


SCENES = Scenes(__file__, scenes(), lambda buildozer, cases, buildifier: refusing({"buildozer": buildozer, "cases": cases, "buildifier": buildifier}))

if __name__ == "__main__":
    SCENES.main()
