#!/usr/bin/env python3
"""Runs the built program buildozer with --journal over real files, and looks at what becomes of the files and their journals.

What must come is written here by hand, or by the form of journals in lib/journal_format.py, never taken from the program: the journals of
worked rows, byte for byte; what later runs read of them; journals that are torn, flipped, or forged under a right closing digest,
each of which must be refused, with its file and itself as they were; files that a journal doesn't fit; and what is left where one
of two writes fails, or another program writes in between. Each scene has folders of its own, in which the program runs as nobody
where the script runs as root.

    [HOSTILE=whole] tests/scenes/journals.py PROGRAM
"""

import collections
import os
import resource
import shutil
import subprocess

from lib import journal_format
from lib.folders import put
from lib.journal_format import Journal, Step, closed, digest, edit, joined, leaf, listing, node, pieces, spelled
from lib.lines import PACKAGE_HINT, UNKEPT, fixed, lines_of, too_far
from lib.odd_texts import TEXTS
from lib.runs import copies, held_to
from lib.scenes import WHOLE, Scenes, named, sample
from lib.workspaces import in_workspace

# how many journals of one kind are tried where a sample is enough
SAMPLE = 150
# how many one run takes
BATCH = 500
# what a run may take of memory while it reads a journal that promises much, beside what a small one takes, in KiB; and all that it
# may request, in bytes
ROOM = 64 * 1024
ADDRESSES = 500_000_000
# the longest note and package, in bytes
LONGEST = 65_536
# levels of a tree, and how many of them are above the value of an assignment
LEVELS, ABOVE = 500, 3

# ---- worked by hand: the texts

NEW = b'cc_library(name = "a")\n'
ODD = b't(name="a",deps=[])'
EVEN = b't(\n    name = "a",\n    deps = [":x"],\n)\n'
Z = EVEN.replace(b":x", b":z")

# ---- worked by hand: the journals

# a new rule in an empty file, and that undone
SAVED_NEW = closed(
    b"bzjournal 2\npackage 0 \ntext 23\n" + NEW + b"\nsteps 1 now 1 before 0\n"
    b"digest " + digest(b"") + b"\ndigest " + digest(NEW) + b"\nstep 1\nnote 16 new cc_library a\nedit 0 0 1 0\n"
)  # fmt: skip
HELD_NEW = b"""edit 0 0 0 1
node 2 2
node 3 1
node 21 4
leaf 1 0 10
cc_library
leaf 5 0 1
(
node 22 3
leaf 1 0 4
name
leaf 5 1 1
 =
leaf 4 1 3
 "a"
leaf 5 0 1
)
leaf 6 0 1


"""
SAVED_UNDONE = closed(
    b"bzjournal 2\npackage 0 \ntext 0\n\nsteps 1 now 0 before 1\n"
    b"digest " + digest(b"") + b"\ndigest " + digest(NEW) + b"\nstep 1\nnote 16 new cc_library a\n" + HELD_NEW
)  # fmt: skip
# of an empty file, in the first version
SAVED_EMPTY_1 = closed(b"bzjournal 1\npackage 1 p\ntext 0\n\nsteps 0 now 0 before 0\ndigest " + digest(b"") + b"\n")


def attribute(gap, name, blank, value):
    equals = leaf(journal_format.MARK, blank, b"=")
    return node(journal_format.NAMED, leaf(journal_format.NAME, gap, name), equals, value)


def mark(token, gap=b""):
    return leaf(journal_format.MARK, gap, token)


# the arguments of both texts, each from the first name to the bracket at the end
ODD_ARGUMENTS = [
    attribute(b"", b"name", b"", leaf(journal_format.STRING, b"", b'"a"')),
    mark(b","),
    attribute(b"", b"deps", b"", node(journal_format.LIST, mark(b"["), mark(b"]"))),
    mark(b")"),
]
EVEN_ARGUMENTS = [
    attribute(b"\n    ", b"name", b" ", leaf(journal_format.STRING, b" ", b'"a"')),
    mark(b","),
    attribute(b"\n    ", b"deps", b" ", node(journal_format.LIST, mark(b"[", b" "), leaf(journal_format.STRING, b"", b'":x"'), mark(b"]"))),
    mark(b","),
    mark(b")", b"\n"),
]
# the text had no newline at its end
TO_ODD = [edit([0, 0, 0], 2, 5, *ODD_ARGUMENTS), edit([0], 1, 1, leaf(journal_format.NEWLINE, b"", b""))]
TO_EVEN = [edit([0, 0, 0], 2, 4, *EVEN_ARGUMENTS), edit([0], 1, 1, leaf(journal_format.NEWLINE, b"", b"\n"))]
ADD = b"add deps //p:x"
SAVED_ADD = Journal(b"p", [ODD, EVEN], 1, 0, [Step(TO_ODD, ADD)])
SAVED_BACK = Journal(b"p", [ODD, EVEN], 0, 1, [Step(TO_EVEN, ADD)])
SAVED_ADD_1 = SAVED_ADD._replace(version=1)

# A file of one number, which was another one before: what is forged. Its value is at the third part of its statement.
ONE, TWO = b"x = 1\n", b"x = 2\n"
VALUE = ([0, 0], 2, 1)


def digits(number, gap=b" "):
    return leaf(journal_format.DIGITS, gap, number)


SOUND = Journal(b"", [ONE, TWO], 1, 0, [Step([edit(*VALUE, digits(b"1"))], b"set")])

# ---- journals that are forged: each must be refused, though all digests are right but where they are what is forged


def stepping(*edits, texts=(ONE, TWO), note=b"set"):
    return SOUND._replace(texts=list(texts), steps=[Step(list(edits), note)])


def before(value):
    """The text in which the number was this."""
    return b"x = " + value + b"\n"


def holding(value, *parts):
    """The number was this text, which is held as these parts."""
    return stepping(edit(*VALUE, *parts), texts=(before(value), TWO))


def nested(levels, inner):
    """A part within so many parentheses."""
    opening = [journal_format.Piece(b"node %d 3\n" % journal_format.PAREN, b""), *mark(b"(")]
    return opening * levels + inner + mark(b")") * levels


def nesting(levels):
    value = b"(" * levels + b"1" + b")" * levels
    return stepping(edit(*VALUE, nested(levels, digits(b"1", b""))), texts=(b"x =" + value + b"\n", TWO))


BOTH = [edit([0, 0], 0, 1, leaf(journal_format.NAME, b"", b"y")), edit(*VALUE, digits(b"1"))]
Y_ONE = b"y = 1\n"
ASSIGNED = node(journal_format.ASSIGN, leaf(journal_format.NAME, b"", b"y"), mark(b"=", b" "), digits(b"1"))
EMPTY = Journal(b"", [b"", b""], 1, 0, [Step([edit([], 5, 1)])])
GREATEST = 4_294_967_295
NOT_A = b"x = not a\n"
PAIR = b"x = [1, 2]\n"

FORGED = {
    "a part past the end of an empty text": EMPTY,
    "no part past the end of an empty text": EMPTY._replace(steps=[Step([edit([], 2, 0, leaf(journal_format.NEWLINE, b"", b"\n"))])]),
    "a part past the last one": stepping(edit([0, 0], 3, 1, digits(b"1"))),
    "one part more than there are": stepping(edit([0, 0], 2, 2, digits(b"1"))),
    "greatest place": stepping(edit([0, 0], GREATEST, 1, digits(b"1"))),
    "greatest count": stepping(edit([0, 0], 2, GREATEST, digits(b"1"))),
    "greatest place and count": stepping(edit([0, 0], GREATEST, GREATEST, digits(b"1"))),
    "a path past the last part": stepping(edit([2], 2, 1, digits(b"1"))),
    "a path past the last part further down": stepping(edit([0, 9], 2, 1, digits(b"1"))),
    "a path with the greatest number": stepping(edit([0, GREATEST], 2, 1, digits(b"1"))),
    "a path through a leaf": stepping(edit([0, 0, 2], 0, 1, digits(b"1"))),
    "a path of 1,000": stepping(edit([0] * 1000, 2, 1, digits(b"1"))),
    "a path of very many numbers": stepping(edit([0] * (500_000 if WHOLE else 50_000), 2, 1, digits(b"1"))),
    "edits out of order": stepping(*BOTH[::-1], texts=(Y_ONE, TWO)),
    "an edit twice": stepping(BOTH[1], BOTH[1]),
    "an edit below what another one covers": stepping(edit([0], 0, 1, ASSIGNED), BOTH[1], texts=(Y_ONE, TWO)),
    "an edit above what another one covers": stepping(BOTH[1], edit([0], 0, 1, ASSIGNED), texts=(Y_ONE, TWO)),
    "edits that share a part": stepping(edit([0, 0], 1, 2, mark(b"=", b" "), digits(b"1")), BOTH[1]),
    "an edit of other lengths beside another one": stepping(edit([0, 0, 2], 1, 2), edit([0, 0, 2], 3, 1, digits(b"3")), texts=(b"x = [ 3]\n", PAIR)),
    "an edit of other lengths above another one": stepping(edit([0, 0], 2, 1), edit([0, 0, 2], 3, 1, digits(b"3")), texts=(b"x =\n", PAIR)),
    "a step without edits": stepping(),
    "a step without edits between equal texts": stepping(texts=(TWO, TWO)),
    "equal sides": stepping(edit(*VALUE, digits(b"2")), texts=(TWO, TWO)),
    "two equal sides": stepping(edit([0, 0], 0, 1, leaf(journal_format.NAME, b"", b"x")), edit(*VALUE, digits(b"2")), texts=(TWO, TWO)),
    "nothing for nothing": stepping(edit([0, 0], 2, 0), texts=(TWO, TWO)),
    "a number as a name": holding(b"1", leaf(journal_format.NAME, b" ", b"1")),
    "a name as a number": holding(b"y", digits(b"y")),
    "a keyword as a name": stepping(edit([0, 0, 2], 0, 1, leaf(journal_format.NAME, b" ", b"not")), texts=(NOT_A, NOT_A)),
    "three lexemes as one": holding(b"1 + 2", digits(b"1 + 2")),
    "a lexeme in a gap": holding(b"1 + 2", digits(b"2", b" 1 + ")),
    "a lexeme whose gap holds all of it": holding(b"1", digits(b"", b" 1")),
    "one lexeme as two": holding(b"12", digits(b"1"), digits(b"2", b"")),
    "a lexeme that joins the one before": stepping(edit([0, 0, 2], 1, 1, leaf(journal_format.NAME, b"", b"a")), texts=(b"x = nota\n", NOT_A)),
    "a lexeme that joins the one after": stepping(edit([0, 0, 2], 0, 1, digits(b"1")), texts=(b"x = 1.b\n", b"x = a.b\n")),
    "a node of another kind": holding(b"()", node(journal_format.LIST, mark(b"(", b" "), mark(b")"))),
    "a node around a single leaf": holding(b"1", node(journal_format.PAREN, digits(b"1"))),
    "a node without parts": stepping(edit(*VALUE, node(journal_format.LIST)), texts=(b"x =\n", TWO)),
    "a text that is refused": holding(b"(", mark(b"(", b" ")),
    "a text that is not UTF-8": holding(b'"\xff"', leaf(journal_format.STRING, b" ", b'"\xff"')),
    "a present text that is refused": SOUND._replace(texts=[ONE, b"x = (\n"]),
    "a present text that is not UTF-8": SOUND._replace(texts=[ONE, b"x = '\xff'\n"]),
    "a tree of 501 levels": nesting(LEVELS - ABOVE + 1),
    "a tree of 1,000 levels": nesting(1000),
    "a tree of 100,000 levels": nesting(100_000),
    "the first digest is another": SOUND._replace(digests=[digest(TWO), digest(TWO)]),
    "the last digest is another": SOUND._replace(digests=[digest(ONE), digest(ONE)]),
    "digests in another order": SOUND._replace(digests=[digest(TWO), digest(ONE)]),
    "a digest in upper case": SOUND._replace(digests=[digest(ONE).upper(), digest(TWO)]),
    "a digest with one digit less": SOUND._replace(digests=[digest(ONE)[:-1], digest(TWO)]),
    "a digest with one digit more": SOUND._replace(digests=[digest(ONE) + b"0", digest(TWO)]),
    "one digest less": SOUND._replace(digests=[digest(TWO)]),
    "one digest more": SOUND._replace(digests=[digest(ONE), digest(TWO), digest(TWO)]),
    "a cursor past the last text": SOUND._replace(texts=[ONE, TWO, TWO], cursor=2, digests=[digest(ONE), digest(TWO)]),
    "a cursor before past the last text": SOUND._replace(before=2),
    "a note that is not UTF-8": stepping(*SOUND.steps[0].edits, note=b"\xff"),
    "a note with half a character": stepping(*SOUND.steps[0].edits, note=b"set \xc3"),
    "a note with a surrogate": stepping(*SOUND.steps[0].edits, note=b"\xed\xa0\x80"),
    "a note with a character spelled too long": stepping(*SOUND.steps[0].edits, note=b"\xc0\xaf"),
    "a note past the longest": stepping(*SOUND.steps[0].edits, note=b"a" * (LONGEST + 1)),
}  # fmt: skip


# Journals whose lines are changed before they are closed, and some whose closing is.
CHANGES = {
    "lines that end with CR LF": lambda lines: closed(lines.replace(b"\n", b"\r\n")),
    "one line that ends with CR LF": lambda lines: closed(lines.replace(b"\nsteps", b"\r\nsteps")),
    "the first line ends with CR LF": lambda lines: closed(lines.replace(b"\n", b"\r\n", 1)),
    "the last line ends with CR LF": lambda lines: closed(lines)[:-1] + b"\r\n",
    "a byte order mark": lambda lines: closed(b"\xef\xbb\xbf" + lines),
    "an empty line": lambda lines: closed(lines.replace(b"\nsteps", b"\n\nsteps")),
    "a space at the end of a line": lambda lines: closed(lines.replace(b"\nnote", b" \nnote")),
    "two spaces": lambda lines: closed(lines.replace(b" now ", b"  now ")),
    "a tab": lambda lines: closed(lines.replace(b" now ", b"\tnow ")),
    "a word in upper case": lambda lines: closed(lines.replace(b"\nstep ", b"\nSTEP ")),
    "a word is missing": lambda lines: closed(lines.replace(b" before 0", b"")),
    "a line twice": lambda lines: closed(lines.replace(b"\nstep 1", b"\nstep 1\nstep 1")),
    "a note twice": lambda lines: closed(lines.replace(b"note 3 set\n", b"note 3 set\nnote 3 set\n")),
    "no note": lambda lines: closed(lines.replace(b"note 3 set\n", b"")),
    "a note in the first version": lambda lines: closed(lines.replace(b"bzjournal 2", b"bzjournal 1")),
    "a step is missing": lambda lines: closed(lines[: lines.index(b"step 1\n")]),
    "a step more": lambda lines: closed(lines + lines[lines.index(b"step 1\n") :]),
    "no newline before the last line": lambda lines: closed(lines[:-1]),
    "an empty line before the last one": lambda lines: closed(lines + b"\n"),
    "no last line": lambda lines: lines,
    "the last line alone": lambda lines: closed(b""),
    "no newline at the end": lambda lines: closed(lines)[:-1],
    "a newline after the end": lambda lines: closed(lines) + b"\n",
    "a byte after the end": lambda lines: closed(lines) + b"\0",
    "a journal after the end": lambda lines: closed(lines) * 2,
    "a last line after the last line": lambda lines: closed(closed(lines)),
    "a closing digest in upper case": lambda lines: lines + b"end " + digest(lines).upper() + b"\n",
    "a closing digest of the text": lambda lines: lines + b"end " + digest(TWO) + b"\n",
    "a closing digest of nothing": lambda lines: lines + b"end " + digest(b"") + b"\n",
}

# First lines, and what is reported of the journals that begin with them.
VERSIONS = {
    b"bzjournal 0\n": 72, b"bzjournal 3\n": 72, b"bzjournal 9\n": 72, b"bzjournal 10\n": 72, b"bzjournal 22\n": 72, b"bzjournal 4294967298\n": 72,
    b"bzjournal 18446744073709551618\n": 72, b"bzjournal " + b"7" * 1000 + b"\n": 72, b"bzjournal 9\n\xff": 72,
    b"bzjournal 01\n": 71, b"bzjournal 02\n": 71, b"bzjournal 09\n": 71, b"bzjournal 00\n": 71, b"bzjournal \n": 71, b"bzjournal\n": 71,
    b"bzjournal 9\r\n": 71, b"bzjournal 9 \n": 71, b"bzjournal  9\n": 71, b"bzjournal +9\n": 71, b"bzjournal -9\n": 71, b"bzjournal 9.0\n": 71,
    b"bzjournal 0x9\n": 71, b"bzjournal \xd9\xa9\n": 71, b"BZJOURNAL 9\n": 71, b" bzjournal 9\n": 71, b"\nbzjournal 9\n": 71, b"\n": 71, b"": 71,
    b"zjournal 9\n": 71, b"\xff\n": 71, b"bzjournal 9": 71,
}  # fmt: skip
NAMES = {71: b"Damaged (71)", 72: b"Version (72)", 73: b"Stale (73)"}
# what is below that line
HINTS = {
    71: "buildozer: this is no journal, or was changed since it was written: delete %s.journal to begin a new history\n",
    72: "buildozer: a program of another version wrote it: use that one, or delete %s.journal to begin a new history\n",
    73: "buildozer: the file changed since the last run with --journal: restore it, or delete %s.journal to begin a new history\n",
}
OTHER_HINT = "buildozer: %s.journal was written for //%s: move it back there, or delete it to begin a new history\n"


def told_of(number, name):
    """What is reported of the journal of this file that is refused so."""
    return f"{name}.journal: ".encode() + NAMES[number] + b"\n" + (HINTS[number] % name).encode()


# Promises of much with nothing after them, each in a journal of the root package over the text of a 2.
FRONT = b"bzjournal 2\npackage 0 \ntext 6\n" + TWO + b"\nsteps 1 now 1 before 0\ndigest " + digest(ONE) + b"\ndigest " + digest(TWO) + b"\n"
MUCH = {
    "parts that are held": FRONT + b"step 1\nnote 0 \nedit 2 0 0 2 1 4294967295\n",
    "parts of a node": FRONT + b"step 1\nnote 0 \nedit 2 0 0 2 1 1\nnode 26 4294967295\n",
    "parts of a node with one": FRONT + b"step 1\nnote 0 \nedit 2 0 0 2 1 1\nnode 26 4294967295\nleaf 5 1 1\n [\n",
    "edits": FRONT + b"step 4294967295\nnote 0 \n",
    "edits with one": FRONT + b"step 4294967295\nnote 0 \nedit 2 0 0 2 1 1\nleaf 3 1 1\n 1\n",
    "numbers of a path": FRONT + b"step 1\nnote 0 \nedit 4294967295 0 0\n",
    "bytes of a gap": FRONT + b"step 1\nnote 0 \nedit 2 0 0 2 1 1\nleaf 3 4294967295 1\n 1\n",
    "bytes of a lexeme": FRONT + b"step 1\nnote 0 \nedit 2 0 0 2 1 1\nleaf 3 1 4294967295\n 1\n",
    "bytes of a note": FRONT + b"step 1\nnote 4294967295 \n",
    "bytes of a text": b"bzjournal 2\npackage 0 \ntext 4294967295\n" + TWO,
    "bytes of a package": b"bzjournal 2\npackage 4294967295 \n",
    "steps": b"bzjournal 2\npackage 0 \ntext 6\n" + TWO + b"\nsteps 100000 now 1 before 0\n",
    "steps past all that there may be": b"bzjournal 2\npackage 0 \ntext 6\n" + TWO + b"\nsteps 100001 now 1 before 0\n",
    "the most steps there may be of numbers": b"bzjournal 2\npackage 0 \ntext 6\n" + TWO + b"\nsteps 4294967295 now 1 before 0\n",
}

# Journals that open, though no run of the program writes all of them: undone they give the first of their texts.
OPENED = {
    "as it is written": SOUND,
    "the first version": SOUND._replace(version=1),
    "another first text": stepping(edit(*VALUE, digits(b"777")), texts=(b"x = 777\n", TWO)),
    "a first text of another kind": holding(b"y", leaf(journal_format.NAME, b" ", b"y")),
    "a cursor before at the cursor": SOUND._replace(before=1),
    "two edits": stepping(*BOTH, texts=(Y_ONE, TWO)),
    "a heavier step than there is": stepping(edit([0], 0, 1, node(journal_format.ASSIGN, leaf(journal_format.NAME, b"", b"x"), mark(b"=", b" "), digits(b"1")))),
    "equal sides beside others": stepping(edit([0, 0], 0, 1, leaf(journal_format.NAME, b"", b"x")), BOTH[1]),
    "no note": stepping(*SOUND.steps[0].edits, note=b""),
    "a note of two lines": stepping(*SOUND.steps[0].edits, note=b"a\nend \nb"),
    "the longest note": stepping(*SOUND.steps[0].edits, note=b"a" * LONGEST),
    "a tree of 500 levels": nesting(LEVELS - ABOVE),
}

# ---- many journals in one run, each in a package of its own

# A case: what it is, the text of the file, the journal by the package's name, and the number that is reported.
Case = collections.namedtuple("Case", "name text journal number", defaults=[71])


def put_cases(w, cases):
    """Writes their files, and lines that undo a step in each; gives the names of the files."""
    names = [f"p{number:05}/BUILD" for number in range(len(cases))]
    for name, case in zip(names, cases):
        put(w.path, {name: case.text, f"{name}.journal": case.journal(name.split("/")[0].encode())})
    put(w.path, {"lines": b"".join(b"undo|//%s:all\n" % name.split("/")[0].encode() for name in names)})
    return names


def refused(cases):
    """Each of the journals is refused, some hundred in one run, and all files stay."""

    def scene(w):
        for start in range(0, len(cases), BATCH):
            shutil.rmtree(w.path)
            w.path.mkdir()
            some = cases[start : start + BATCH]
            see_refused(w, some, put_cases(w, some))
        return bool(cases) and not w.wrong

    return scene


def see_refused(w, cases, names):
    """One run over all of them."""
    files = w.left()
    status, out, err = w.ended(["-k", "--journal", "-f", "lines"])
    wanted = [f"{name}.journal: ".encode() + NAMES[case.number] for name, case in zip(names, cases)]
    hints = [(HINTS[case.number] % name).encode().rstrip() for name, case in zip(names, cases)]
    lines = err.splitlines()
    if (status, out, lines) != (2, b"", [line for pair in zip(wanted, hints) for line in pair]):
        w.wrong += [f"status {status}, output {out[:200]}"] if (status, out) != (2, b"") else []
        others = [f"{case.name}: not {line}" for case, line in zip(cases, wanted) if line not in lines]
        w.wrong += others[:5] + [f"of {len(cases)} are reported otherwise: {len(others)}", f"errors {err[:300]}"]
    changed = [name for name, text in w.left().items() if files.get(name) != text]
    w.wrong += [f"changed: {changed[:5]}"] if changed else []


def opened(cases):
    """Each of the journals opens, and undone gives the text that it should."""

    def scene(w):
        names = put_cases(w, [case for case, _ in cases])
        status, out, err = w.ended(["-k", "--journal", "--quiet", "-f", "lines"])
        if (status, out, err) != (0, b"", b""):
            w.wrong.append(f"status {status}, output {out[:200]}, errors {err[:500]}")
        left = w.left()
        w.wrong += [f"{case.name}: {left[name]}, and not {text}"[:500] for name, (case, text) in zip(names, cases) if left[name] != text]
        return not w.wrong

    return scene


def of_package(journal, change=lambda lines: closed(lines)):
    return lambda package: change(joined(pieces(journal._replace(package=package))))


def case_of(name, journal, change=closed, number=71):
    return Case(name, journal.texts[journal.cursor], of_package(journal, change), number)


def beginnings(journal):
    """Each proper beginning."""
    # the packages of the cases have names of one length
    length = len(spelled(journal._replace(package=b"p00000")))
    ends = sample(range(length), SAMPLE)
    return [case_of(f"{end} bytes of {length}", journal, lambda lines, end=end: closed(lines)[:end]) for end in ends]


def flipped(text, at, bit):
    return text[:at] + bytes([text[at] ^ 1 << bit]) + text[at + 1 :]


def flips(journal):
    """A bit flipped at each byte after the first line, another one in turn; or each bit."""
    text = spelled(journal._replace(package=b"p00000"))
    places = range(text.index(b"\n") + 1, len(text))
    bits = [(at, bit) for at in places for bit in (range(8) if WHOLE else [at % 8])]
    chosen = sample(bits, SAMPLE)
    return [case_of(f"bit {bit} of byte {at}", journal, lambda lines, at=at, bit=bit: flipped(closed(lines), at, bit)) for at, bit in chosen]


def first_line_flips(journal):
    """Each bit of the first line flipped: the digit becomes another one by some, which is another version."""
    line = b"bzjournal %d\n" % journal.version
    cases = []
    for at, bit in ((at, bit) for at in range(len(line)) for bit in range(8)):
        number = 72 if at == len(line) - 2 and flipped(line, at, bit)[at : at + 1].isdigit() else 71
        cases.append(case_of(f"bit {bit} of byte {at}", journal, lambda lines, at=at, bit=bit: flipped(closed(lines), at, bit), number))
    return cases


def removals(journal):
    """Each byte taken away, under a right closing digest."""
    length = len(joined(pieces(journal._replace(package=b"p00000"))))
    chosen = sample(range(length), SAMPLE)
    return [case_of(f"without byte {at}", journal, lambda lines, at=at: closed(lines[:at] + lines[at + 1 :])) for at in chosen]


SPELLINGS = [b"0%s", b"4294967296", b"18446744073709551616", b"", b"-1", b"+%s", b" %s", b"%s.0", b"0x1"]


def numbers(journal):
    """Each number after the first line spelled otherwise, under a right closing digest."""
    some, cases = pieces(journal._replace(package=b"p00000")), []
    for place, start, end in journal_format.numbers_in(some):
        head = some[place].head
        for spelling in (each.replace(b"%s", head[start:end]) for each in SPELLINGS):

            def changed(package, at=(place, start, end), spelling=spelling):
                return closed(joined(journal_format.with_number(pieces(journal._replace(package=package)), *at, spelling)))

            cases.append(Case(f"{spelling} in {head} from {start}", journal.texts[journal.cursor], changed))
    return sample(cases, SAMPLE)


def versions():
    rest = lambda line: lambda lines: closed(line + lines.split(b"\n", 1)[1])
    alone = [Case(f"{line} alone", TWO, lambda package, line=line: line, number) for line, number in VERSIONS.items()]
    return alone + [case_of(f"{line} before the rest", SOUND, rest(line), number) for line, number in VERSIONS.items() if line.endswith(b"\n") and line != b"\n"]

def promised(much):
    """A promise of much with nothing after it is refused at once, within the memory that a small journal takes and some more."""

    def scene(w):
        put(w.path, {"BUILD": TWO, "BUILD.journal": spelled(SOUND)})
        limit = held_to(resource.RLIMIT_AS, ADDRESSES)
        # one that looks after its memory itself needs more addresses than there are in such a limit
        limit = limit if peak(w, limit)[0] == 3 else None
        small = peak(w, limit)
        put(w.path, {"BUILD.journal": closed(much)})
        status, told, memory = peak(w, limit)
        if (small[0], status, told) != (3, 2, told_of(71, "BUILD")) or memory > small[2] + ROOM:
            w.wrong.append(f"status {status}, {told}, {memory} KiB, and {small} of a small one")
        return not w.wrong and w.left() == {"BUILD": TWO, "BUILD.journal": closed(much)}

    return scene


def peak(w, limit):
    """The status, standard error and peak memory in KiB of a run that lists a journal."""
    words = [w.program, "--journal", "journal", "//:all"]
    with subprocess.Popen(words, cwd=w.path, stdout=subprocess.DEVNULL, stderr=subprocess.PIPE, preexec_fn=limit) as run:
        told = run.stderr.read()
        _, status, used = os.wait4(run.pid, 0)
        run.returncode = os.waitstatus_to_exitcode(status)
    return run.returncode, told, used.ru_maxrss


# ---- runs, one after the other: in each folder some files, and the words of each run with what it leaves


def runs(files, *rows):
    """A scene of these runs over these files; a row is words, the status, and what is left; or files that another program writes."""

    def scene(w):
        put(w.path, files)
        for row in rows:
            if isinstance(row, dict):
                put(w.path, row)
            elif not w.leaves(*row[:2], **row[2]):
                return False
        return True

    return scene


def told(out=b"", err=b"", after={}):
    return {"out": out, "err": err, "after": after}


P, KEPT = "p/BUILD", "p/BUILD.journal"
FILE = {P: ODD}
ADDING = ["--journal", "add deps //p:x", "//p:a"]
LISTING = ["--journal", "journal", "//p:a"]
UNDOING = ["--journal", "undo", "//p:a"]
REDOING = ["--journal", "redo", "//p:a"]
ADDED = {P: EVEN, KEPT: spelled(SAVED_ADD)}
BACK = {P: ODD, KEPT: spelled(SAVED_BACK)}
LISTED = {cursor: listing([ODD, EVEN], cursor, [ADD]) for cursor in (0, 1)}
UNWRITTEN = b"p/BUILD: cannot write\n"
DAMAGED, STALE = told_of(71, P), told_of(73, P)
# what is below a step that a full history has no room for
FULL_HINT = b"buildozer: a history has at most 100,000 steps: do the rest in another run, with --journal after the journal is deleted\n"
# what is reported of the journal of another package
of_other = lambda package: told(err=b"p/BUILD.journal: Damaged (71)\n" + (OTHER_HINT % (P, package)).encode())
# the journal of three texts, of which the present one is the last
THREE = Journal(b"p", [b"x = 0\n", ONE, TWO], 2, 1, [Step([edit(*VALUE, digits(b"0"))], b"a"), Step([edit(*VALUE, digits(b"1"))], b"b")])
# the file with a string of two lines, and with a label of another package
SIZED = b't(\n    name = "a",\n    size = "a\\nb",\n    deps = [],\n)\n'
SAVED_SIZE = Journal(b"p", [ODD, SIZED], 1, 0, [Step([edit([0, 0, 0], 2, 7, *ODD_ARGUMENTS), TO_ODD[1]], b"set size a\nb")])
LISTED_SIZE = listing([ODD, SIZED], 1, [b"set size a\nb"])
FAR = EVEN.replace(b":x", b"//p:x")
REFUSED_TEXT = b"t(\n"

RUNS = {
    "a new rule in an empty file": runs(
        {"BUILD": b""},
        (["--journal", "new cc_library a", "//:__pkg__"], 0, told(err=fixed("BUILD"), after={"BUILD": NEW, "BUILD.journal": SAVED_NEW})),
        (["--journal", "undo", "//:__pkg__"], 0, told(err=fixed("BUILD"), after={"BUILD": b"", "BUILD.journal": SAVED_UNDONE})),
        (["--journal", "redo", "//:__pkg__"], 0, told(err=fixed("BUILD"), after={"BUILD": NEW, "BUILD.journal": SAVED_NEW})),
    ),
    "three runs": runs(
        FILE,
        (ADDING, 0, told(err=fixed(P), after=ADDED)),
        (UNDOING, 0, told(err=fixed(P), after=BACK)),
        (LISTING, 3, told(LISTED[0])),
    ),
    "undo and redo in runs of their own": runs(
        ADDED, (UNDOING, 0, told(err=fixed(P), after=BACK)), (UNDOING, 2, told(err=too_far("undo", P))),
        (REDOING, 0, told(err=fixed(P), after=ADDED)), (REDOING, 2, told(err=too_far("redo", P))), (LISTING, 3, told(LISTED[1])),
    ),
    "a command and its undo in one run": runs(FILE, ([*ADDING[:2], "undo", "//p:a"], 3, told(err=fixed(P), after=BACK))),
    "a later text is cut": runs(
        BACK,
        (["--journal", "add deps :z", "journal", "//p:a"], 0, told(listing([ODD, Z], 1, [b"add deps :z"]), fixed(P), {
            P: Z, KEPT: spelled(SAVED_ADD._replace(texts=[ODD, Z], steps=[Step(TO_ODD, b"add deps :z")]))})),
        (REDOING, 2, told(err=too_far("redo", P))),
    ),
    "too far is refused, and all stays": runs(ADDED, (["--journal", "undo 2", "//p:a"], 2, told(err=too_far("undo 2", P))), (LISTING, 3, told(LISTED[1]))),
    "two steps at once": runs(
        {P: TWO, KEPT: spelled(THREE)},
        (["--journal", "undo 2", "//p:all"], 0, told(err=fixed(P), after={P: b"x = 0\n", KEPT: spelled(THREE._replace(
            cursor=0, before=2, steps=[Step([edit(*VALUE, digits(b"1"))], b"a"), Step([edit(*VALUE, digits(b"2"))], b"b")]))})),
        (["--journal", "redo 2", "//p:all"], 0, told(err=fixed(P), after={P: TWO, KEPT: spelled(THREE._replace(before=0))})),
    ),
    "a command in a line of a file is its note": runs(
        {**FILE, "lines": lines_of("# why", "", "add deps //p:x|//p:a")}, (["-f", "lines", "--journal"], 0, told(err=fixed(P), after=ADDED))
    ),
    "a note of two lines is listed as one": runs(
        FILE, (["--journal", "set kind t", "set size a\nb", "journal", "//p:a"], 0, told(LISTED_SIZE, fixed(P), {P: SIZED, KEPT: spelled(SAVED_SIZE)})),
        (LISTING, 3, told(LISTED_SIZE)),
    ),
    "what prints, finds nothing to do or is refused leaves no journal": runs(
        FILE,
        (["--journal", "print name", "journal", "//p:a"], 3, told(b"a\n* 0 " + digest(ODD) + b"\n")),
        (["--journal", "set kind t", "remove deps :x", "//p:a"], 3, told()),
        (["--journal", "delete", "//p:b"], 2, told(err=b"buildozer: p/BUILD: delete: NoTarget (41)\n" + b"buildozer: no rule of p/BUILD has the name 'b': did you mean 'a'?\n")),
        (["--journal", "redo", "//p:a"], 2, told(err=too_far("redo", P))),
    ),
    "without --journal a journal is neither read nor written": runs(
        {P: ODD, KEPT: b"none"},
        (["add deps //p:x", "journal", "//p:a"], 0, told(LISTED[1], fixed(P), {P: EVEN})),
        (["undo", "//p:a"], 2, told(err=b"buildozer: p/BUILD: undo: TooFar (61)\n" + UNKEPT)),
    ),
    "the texts of standard input are listed": runs(
        {}, (["--", "new cc_library a", "journal", "-:__pkg__"], 0, told(listing([b"", NEW], 1, [b"new cc_library a"]) + NEW)),
        (["--", "new cc_library a", "undo", "journal", "-:__pkg__"], 3, told(listing([b"", NEW], 0, [b"new cc_library a"]))),
    ),
    "listing alone gives no text of standard input": runs({}, (["--", "journal", "-:all"], 3, told(b"* 0 " + digest(b"") + b"\n"))),
    "--quiet prints no file that was written": runs(FILE, (["--quiet", *ADDING], 0, told(after=ADDED)), (["--quiet", *UNDOING], 0, told(after=BACK))),
    "--quiet prints what is refused": runs({P: ODD, KEPT: b""}, (["--quiet", *ADDING], 2, told(err=DAMAGED))),
    "BUILD.bazel has a journal of its own": runs(
        {"p/BUILD.bazel": ODD, P: TWO, KEPT: b"none"},
        (ADDING, 0, told(err=fixed("p/BUILD.bazel"), after={"p/BUILD.bazel": EVEN, "p/BUILD.bazel.journal": spelled(SAVED_ADD)})),
    ),
    "each file has its journal": runs(
        {P: ODD, "q/BUILD": ODD},
        (["--journal", "add deps :x", "//q:a", "//p:a"], 0, told(err=fixed("q/BUILD", P), after={
            P: EVEN, "q/BUILD": EVEN, KEPT: spelled(SAVED_ADD._replace(steps=[Step(TO_ODD, b"add deps :x")])),
            "q/BUILD.journal": spelled(SAVED_ADD._replace(package=b"q", steps=[Step(TO_ODD, b"add deps :x")]))})),
    ),
    # the first version
    "a journal of the first version opens": runs(
        {P: b"", KEPT: SAVED_EMPTY_1}, (["--journal", "journal", "//p:all"], 3, told(b"* 0 " + digest(b"") + b"\n")),
        (["--journal", "new cc_library a", "//p:all"], 0, told(err=fixed(P), after={
            P: NEW, KEPT: closed(SAVED_NEW[: -len(b"end \n") - 64].replace(b"package 0 ", b"package 1 p"))})),
    ),
    "steps of the first version have no notes": runs(
        {P: EVEN, KEPT: spelled(SAVED_ADD_1)}, (LISTING, 3, told(listing([ODD, EVEN], 1, [b""]))),
        (UNDOING, 0, told(err=fixed(P), after={P: ODD, KEPT: spelled(SAVED_BACK._replace(steps=[Step(TO_EVEN)]))})),
    ),
    "another version is reported": runs({P: ODD, KEPT: b"bzjournal 9\n"}, (ADDING, 2, told(err=told_of(72, P)))),
    # journals that don't fit
    "the journal of another package": runs({P: EVEN, KEPT: spelled(SAVED_ADD._replace(package=b"q"))}, (UNDOING, 2, of_other("q")), (LISTING, 2, of_other("q"))),
    "the journal of a package that forges a line": runs({P: EVEN, KEPT: spelled(SAVED_ADD._replace(package=b"q\nfixed p/BUILD\n\x1b[31m"))}, (UNDOING, 2, of_other("q\\nfixed p/BUILD\\n\\x1b[31m"))),
    "the journal of a package with a long name": runs({P: EVEN, KEPT: spelled(SAVED_ADD._replace(package=b"q" * LONGEST))}, (UNDOING, 2, of_other("q" * 200))),
    "the journal of the root package": runs({P: EVEN, KEPT: spelled(SAVED_ADD._replace(package=b""))}, (UNDOING, 2, of_other(""))),
    "the journal of a package whose name goes on": runs({P: EVEN, KEPT: spelled(SAVED_ADD._replace(package=b"p/q"))}, (UNDOING, 2, of_other("p/q"))),
    "the journal of another package beside another text": runs({P: ODD + b"#", KEPT: spelled(SAVED_ADD._replace(package=b"q"))}, (UNDOING, 2, told(err=STALE))),
    "the journal of a package past the longest name": runs({P: EVEN, KEPT: spelled(SAVED_ADD._replace(package=b"p" * (LONGEST + 1)))}, (UNDOING, 2, told(err=DAMAGED))),
    "a file that was changed by hand": runs(
        ADDED, {P: EVEN + b"# by hand\n"}, *[(words, 2, told(err=STALE)) for words in (UNDOING, REDOING, ADDING, LISTING)], {P: EVEN},
        (UNDOING, 0, told(err=fixed(P), after=BACK)),
    ),
    "a file that a run without --journal changed": runs(
        ADDED, (["add deps :z", "//p:a"], 0, told(err=fixed(P), after={P: EVEN.replace(b'[":x"]', b'[\n        ":x",\n        ":z",\n    ]')})), (UNDOING, 2, told(err=STALE))
    ),
    "a file that holds an earlier text": runs({P: b"x = 0\n", KEPT: spelled(THREE)}, (["--journal", "redo", "//p:all"], 2, told(err=STALE))),
    "a text that is refused beside its journal": runs({P: REFUSED_TEXT, KEPT: spelled(SAVED_ADD)}, (UNDOING, 2, told(err=STALE))),
    "a text that is refused without a journal": runs({P: REFUSED_TEXT}, (ADDING, 2, told(err=b"p/BUILD:2:1: Unexpected\n    \n    ^ the end of the file\n    inside the '(' at 1:2\n"))),
    "a file that is gone": runs({KEPT: spelled(SAVED_ADD)}, (UNDOING, 2, told(err=b"p/BUILD: cannot open\n" + PACKAGE_HINT))),
    "one bit more": runs({P: EVEN, KEPT: spelled(SAVED_ADD).replace(b"note 14 a", b"note 14 A")}, (UNDOING, 2, told(err=DAMAGED))),
    "a refused journal ends the run": runs(
        {P: ODD, KEPT: b"", "q/BUILD": ODD}, (["--journal", "add deps :x", "//p:a", "//q:a"], 2, told(err=DAMAGED))
    ),
    "-k passes over a refused journal": runs(
        {P: ODD, KEPT: b"", "q/BUILD": ODD}, (["-k", "--journal", "print name", "add deps //p:x", "//p:a", "//q:a"], 2, told(b"a\n", DAMAGED + fixed("q/BUILD"), {
            "q/BUILD": FAR, "q/BUILD.journal": spelled(SAVED_ADD._replace(package=b"q", texts=[ODD, FAR]))})),
    ),
    # stops between the two writes
    "a stop between the writes of a command": runs(
        {P: ODD, KEPT: spelled(SAVED_ADD)}, (LISTING, 3, told(LISTED[0])), (REDOING, 0, told(err=fixed(P), after=ADDED)),
    ),
    "a stop between the writes of an undo": runs(
        {P: EVEN, KEPT: spelled(SAVED_BACK)}, (LISTING, 3, told(LISTED[1])), (UNDOING, 0, told(err=fixed(P), after=BACK)),
    ),
    "a command after a stop": runs(
        {P: ODD, KEPT: spelled(SAVED_ADD)}, (["--journal", "undo", "//p:a"], 2, told(err=too_far("undo", P))), (ADDING, 0, told(err=fixed(P), after=ADDED)),
    ),
    "files that a stop left under new names": runs({**FILE, f"{P}.bznew": b"half", f"{KEPT}.bznew": b"half"}, (LISTING, 3, told(b"* 0 " + digest(ODD) + b"\n"))),
    # usage
    "--journal beside --stdout": runs(ADDED, (["--stdout", *UNDOING], 1, told(err=b"buildozer: --stdout beside --journal\n"))),
    "--journal beside standard input": runs({"BUILD": ODD}, (["--journal", "--", "add deps :x", "//:a", "-:a"], 1, told(err=b"buildozer: package - has no journal\n"))),
    "journal takes no words": runs(ADDED, (["--journal", "journal 1", "//p:a"], 1, told(err=b"buildozer: journal 1: Arguments (32)\nbuildozer: the form is 'journal'\n"))),
    "--journal twice": lambda w: runs(ADDED)(w) and w.leaves(["--journal", *UNDOING], 1, err=b"error: the argument '--journal' cannot be used multiple times\n", begins=True),
}  # fmt: skip

# ---- scenes of their own


def left_files_are_written_over(w):
    """What a killed run left under the new names goes with the next run that writes, also where nobody may write it."""
    put(w.path, {**FILE, f"{P}.bznew": b"half", f"{KEPT}.bznew": b"half"})
    for name in (P, KEPT):
        (w.path / f"{name}.bznew").chmod(0o400)
    ended = w.ended(ADDING)
    return ended == (0, b"", fixed(P)) and w.left() == ADDED


def permission_bits_stay(w):
    put(w.path, ADDED)
    modes = {P: 0o640, KEPT: 0o600}
    for name, mode in modes.items():
        (w.path / name).chmod(mode)
    undone = w.leaves(UNDOING, 0, err=fixed(P), after=BACK)
    return undone and {name: (w.path / name).stat().st_mode & 0o7777 for name in modes} == modes


def a_new_journal_has_the_bits_of_its_file(w):
    """What nobody else may read in a file they may not read in its journal."""
    put(w.path, FILE)
    (w.path / P).chmod(0o600)
    added = w.leaves(ADDING, 0, err=fixed(P), after=ADDED)
    return added and [(w.path / name).stat().st_mode & 0o7777 for name in (P, KEPT)] == [0o600, 0o600]


def unopened(w, *files):
    """A journal that can't be read is reported, nothing is run on its file, and with -k the run goes on with the next one."""
    put(w.path, {**dict(files), P: ODD, "q/BUILD": ODD})
    err = b"p/BUILD.journal: cannot open\n"
    first = w.leaves(["--journal", "print name", "//p:a", "//q:a"], 2, err=err)
    return first and w.leaves(["-k", "--journal", "print name", "//p:a", "//p:all", "//q:a"], 2, out=b"a\n", err=err)


def a_folder_for_a_journal_is_told(w):
    (w.path / KEPT).mkdir(parents=True)
    return unopened(w)


def a_journal_that_nobody_may_read_is_told(w):
    put(w.path, {KEPT: spelled(SAVED_BACK)})
    (w.path / KEPT).chmod(0)
    return unopened(w)


def unwritten(w, **after):
    """The first command that can't be kept is reported, and with -k too nothing more is run on this file and its journal; other files are edited."""
    put(w.path, {"q/BUILD": EVEN.replace(b":x", b":y")})
    words = ["-k", "--journal", "add deps //p:x", "print deps", "undo", "journal", "delete", "//p:a", "//p:all", "//q:none"]
    first, second, last = [b"buildozer: q/BUILD: %s: NoTarget (41)\nbuildozer: no rule of q/BUILD has the name 'none'\n" % command for command in (b"add deps //p:x", b"print deps", b"delete")]
    missing = first + second + too_far("undo", "q/BUILD") + last
    printed = b"* 0 " + digest(EVEN.replace(b":x", b":y")) + b"\n"
    return w.leaves(words, 2, out=printed, err=UNWRITTEN + missing, **after)


def a_journal_that_cannot_be_written_is_told(w):
    """Neither is written, since the journal comes first; the next run finds the file as it was."""
    put(w.path, FILE)
    (w.path / f"{KEPT}.bznew").mkdir()
    if not unwritten(w) or not w.leaves([*ADDING, "//q:a"], 2, err=UNWRITTEN):
        return False
    (w.path / f"{KEPT}.bznew").rmdir()
    return w.leaves(ADDING, 0, err=fixed(P), after=ADDED)


def a_file_that_cannot_be_written_is_told(w):
    """Its new file is made before the journal's takes its place, so neither is written."""
    put(w.path, FILE)
    (w.path / f"{P}.bznew").mkdir()
    if not unwritten(w):
        return False
    (w.path / f"{P}.bznew").rmdir()
    return w.leaves(ADDING, 0, err=fixed(P), after=ADDED)


def a_closed_folder_is_told(w):
    """Nothing can be written there, so nothing more is run on its file; a run that only lists goes on."""
    put(w.path, BACK)
    (w.path / "p").chmod(0o555)
    closed_folder = w.leaves(REDOING, 2, err=UNWRITTEN) and unwritten(w) and w.leaves(LISTING, 3, out=LISTED[0])
    (w.path / "p").chmod(0o755)
    return closed_folder


def a_second_path_finds_the_journal_of_the_first(w):
    """The journal is that of the package by its first path, so it is refused by the second one, and the edit by the first stays."""
    put(w.path, FILE)
    err = b"./p/BUILD.journal: Damaged (71)\n" + (OTHER_HINT % ("./p/BUILD", "p")).encode() + fixed(P)
    return w.leaves([*ADDING, "//./p:a"], 2, err=err, after=ADDED) and w.leaves(UNDOING, 0, err=fixed(P), after=BACK)


def a_second_path_that_was_open_before(w):
    """Both were opened before the first edit: what the second one has is no longer in the file, so nothing is written by it."""
    put(w.path, FILE)
    lines = lines_of("print name|//p:a|//./p:a", "add deps //p:x|//p:a", "add deps :y|//./p:a", "print name|//./p:a")
    err = b"./p/BUILD: cannot write\n" + fixed(P)
    told_once = w.leaves(["-k", "--journal", "-f", "lines"], 2, out=b"a\na\n", err=err, after=ADDED, lines=lines)
    return told_once and w.leaves(UNDOING, 0, err=fixed(P), after=BACK)


def the_longest_command_is_a_note(w):
    """It comes back from the journal whole; with one byte more it is no command."""
    put(w.path, FILE)
    value = "a" * (LONGEST - len("set size "))
    text = b't(\n    name = "a",\n    size = "' + value.encode() + b'",\n    deps = [],\n)\n'
    note = b"set size " + value.encode()
    kept = SAVED_SIZE._replace(texts=[ODD, text], steps=[Step(SAVED_SIZE.steps[0].edits, note)])
    longer = w.leaves(["--journal", f"set size {value}a", "//p:a"], 1, err=b"buildozer: set size ", begins=True)
    written = w.leaves(["--journal", note.decode(), "//p:a"], 0, err=fixed(P), after={P: text, KEPT: spelled(kept)})
    return longer and written and w.leaves(LISTING, 3, out=listing([ODD, text], 1, [note]))


def each_action_goes_on_after_a_stop(w):
    """Stopped before its two writes, or between them, each action is done by the next run as if nothing had been; stopped after them, undo leads back."""
    for words, before in ((ADDING, FILE), (UNDOING, ADDED), (REDOING, BACK), (["--journal", "delete", "//p:a"], ADDED)):
        put(w.path, before)
        after = w.left() if w.ended(words) == (0, b"", fixed(P)) else {}
        for stopped in (before, {P: before[P], KEPT: after.get(KEPT, b"")}):
            (w.path / KEPT).unlink(missing_ok=True)
            put(w.path, stopped)
            if w.ended(words) != (0, b"", fixed(P)) or w.left() != after:
                w.wrong.append(f"{words[1]} after a stop: {w.left()}")
        back = UNDOING if words is not UNDOING else REDOING
        if w.ended(back) != (0, b"", fixed(P)) or w.left()[P] != before[P]:
            w.wrong.append(f"{back[1]} after {words[1]}: {w.left()}")
        (w.path / KEPT).unlink(missing_ok=True)
    return not w.wrong


# how many texts a history may have after its first one
MOST_STEPS = 100_000


def of_size(number):
    return b't(\n    name = "a",\n    size = %d,\n)\n' % number


def the_most_texts_come_back(w):
    """From a journal with the most steps the first text comes back; a further step is refused, and so is a step more than there are."""
    sizes = [0, 1] * (MOST_STEPS // 2) + [0]
    back = [Step([edit([0, 0, 0, 4], 2, 1, leaf(journal_format.DIGITS, b" ", b"%d" % size))], b"set size") for size in sizes[:-1]]
    full = Journal(b"p", list(map(of_size, sizes)), MOST_STEPS, MOST_STEPS - 1, back)
    forth = [Step([edit([0, 0, 0, 4], 2, 1, leaf(journal_format.DIGITS, b" ", b"%d" % size))], b"set size") for size in sizes[1:]]
    put(w.path, {P: of_size(0), KEPT: spelled(full)})
    refused = w.leaves(["--journal", "set size 1", "//p:a"], 2, err=b"buildozer: p/BUILD: set size 1: Full (62)\n" + FULL_HINT)
    further = w.leaves(["--journal", f"undo {MOST_STEPS + 1}", "//p:a"], 2, err=too_far(f"undo {MOST_STEPS + 1}", P))
    after = {KEPT: spelled(full._replace(cursor=0, before=MOST_STEPS, steps=forth))}
    return refused and further and w.leaves(["--journal", f"undo {MOST_STEPS}", "//p:a"], 3, err=fixed(P), after=after)


def the_most_texts_of_a_run(w):
    """A run makes as many texts and no more, and goes back to the one that it read."""
    put(w.path, FILE)
    lines = b"".join(b"set size %d|//p:a\n" % number for number in range(MOST_STEPS + 1))
    told = b"buildozer: p/BUILD: set size %d: Full (62)\n" % MOST_STEPS + FULL_HINT
    (w.path / "lines").write_bytes(lines + b"undo %d|//p:a\n" % MOST_STEPS)
    return w.leaves(["-k", "-f", "lines"], 2, err=told)


def odd_texts_come_back(w):
    """Each odd text is changed in one run, and undone in the next one, byte for byte; and so are all in a third and a fourth."""
    texts = {f"p{number}/BUILD": text for number, text in enumerate(TEXTS.values())}
    put(w.path, texts)
    targets = [f"//p{number}:__pkg__" for number in range(len(TEXTS))]
    for command, status in (("new t zz", 0), ("undo", 0), ("redo", 0), ("journal", 3), ("undo", 0)):
        ended = w.ended(["--quiet", "--journal", command, *targets])
        files = w.left()
        same = [name for name, text in texts.items() if files[name] == text]
        if (ended[0], ended[2]) != (status, b"") or len(same) != (len(texts) if command == "undo" else 0):
            w.wrong.append(f"{command}: {ended[0]}, {ended[2][:300]}, as they were: {same}")
    return not w.wrong


def long_texts_come_back(w):
    """Of the length that was the longest once, and longer: what one run changes the next one gives back."""
    rule = b'f( name="x" )\n'
    for size in (4_194_304, 5_000_000):
        text = rule + b"#" + b"a" * (size - len(rule) - 2) + b"\n"
        put(w.path, {P: text})
        (w.path / KEPT).unlink(missing_ok=True)
        for command, is_text in (("set size small", False), ("undo", True), ("redo", False), ("undo", True)):
            ended = w.ended(["--quiet", "--journal", command, "//p:x"])
            if ended != (0, b"", b"") or (w.left()[P] == text) != is_text:
                w.wrong.append(f"{size} bytes, {command}: {ended[0]}, {ended[2][:300]}")
    return not w.wrong


VERSION_NAMES = {2: "the second version", 1: "the first version"}
WORKED = {2: SAVED_ADD, 1: SAVED_ADD_1}
TRIED = {"each beginning": beginnings, "a bit flipped": flips, "each bit of the first line": first_line_flips, "a byte taken away": removals, "a number": numbers}


def in_versions(name, journal):
    """It in both versions, but where it is about notes, which the first one hasn't."""
    return [case_of(f"{name}, {VERSION_NAMES[version]}", journal._replace(version=version)) for version in (2, 1) if version == 2 or "note" not in name]


def scenes():
    found = dict(RUNS)
    for version, journal in WORKED.items():
        for name, cases in TRIED.items():
            found[f"{name}, {VERSION_NAMES[version]}"] = lambda w, cases=cases, journal=journal: refused(cases(journal))(w)
    found |= {f"forged, {name}": refused(in_versions(name, journal)) for name, journal in FORGED.items()}
    found |= {f"forged, {name}": refused([case_of(name, SOUND, change)]) for name, change in CHANGES.items()}
    found["first lines"] = refused(versions())
    found |= {f"a promise of {name}": promised(much) for name, much in MUCH.items()}
    found |= {f"opens, {name}": opened([(case_of(name, journal), journal.texts[0])]) for name, journal in OPENED.items()}
    return found | named(
        left_files_are_written_over, permission_bits_stay, a_new_journal_has_the_bits_of_its_file, a_folder_for_a_journal_is_told, a_journal_that_nobody_may_read_is_told,
        a_journal_that_cannot_be_written_is_told, a_file_that_cannot_be_written_is_told, a_closed_folder_is_told,
        a_second_path_finds_the_journal_of_the_first, a_second_path_that_was_open_before, each_action_goes_on_after_a_stop, the_longest_command_is_a_note,
        the_most_texts_come_back, the_most_texts_of_a_run, odd_texts_come_back, long_texts_come_back,
    )  # fmt: skip


SCENES = Scenes(__file__, scenes(), copies, in_workspace({}))

if __name__ == "__main__":
    SCENES.main()
