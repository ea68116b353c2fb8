#!/usr/bin/env python3
"""Runs both built programs over torn, deep and made texts, many of them in one run, and looks at what becomes of each.

The texts are every beginning, and every removal of one byte, of the texts of the worked rows and of some odd ones; every construct
that nests, at as many levels as a tree may have and at one more, and far deeper; texts of 24 pieces by chance, of which none is accepted; and texts that are
made by the grammar, of which all are. Whatever a text is, both programs must agree on it: both refuse it, by the same line, and
leave it as it is; or both accept it, and then

- formatting the formatted text changes nothing, and --mode=check says so;
- each comment occurs in the formatted text as often (what a comment is, is found by a few lines of this script);
- buildozer, which adds a rule to it and takes that back, leaves it byte for byte.

The program cases copies what such texts say: tree, value, each expression, and the step to the tree before; each copy is there and equal.

    [HOSTILE=whole] tests/scenes/hostile_texts.py BUILDOZER BUILDIFIER CASES
"""

import collections
import pathlib
import re
import subprocess

from lib import grammar, worked_rows
from lib.folders import new_folder, put
from lib.odd_texts import TEXTS
from lib.runs import PATIENCE, ended
from lib.scenes import WHOLE, Scenes, Wrong, sample

# how many texts one run takes, and how many of each sort are a sample
BATCH = 500
SAMPLE = 1000
# how many texts are made of pieces, of how many pieces, and how many are made by the grammar
TEXTS_OF_PIECES = 20_000
LENGTH = 24
TEXTS_OF_GRAMMAR = 20_000
# rows of more bytes are not torn
LONGEST = 1000
LEVELS = 500

PIECES = ["a", "load", '"x"', "1.", "(", ")", "[", "]", ",", "=", "+", ".", " ", "\n", "# c\n", "\\\n"]

# what may be reported of a text that is refused: a line, below it that of the text with a caret and what is there, and what that means, or a bracket that is open there
NAMES = rb"(?:BadCharacter|OpenString|Indented|Unexpected|TooDeep)"
SENSES = rb"    (?:no name, |the string that |a statement |what begins )[^\n]*\n"
REFUSED = re.compile(rb"p(\d+)/BUILD:(?: (?:NotUtf8 at \d+|TooLarge)\n    [at][^\n]*\n|\d+:\d+: " + NAMES + rb"\n(?:    [^\n]*\n    [ ]*\^ [^\n]*\n)?(?:" + SENSES + rb")?(?:    inside the '[(\[{]' at \d+:\d+\n)?)")
# a string between three marks, or one; or a comment
QUOTED = re.compile(rb"('''|\"\"\")(?:\\.|(?!\1).)*\1|(['\"])(?:\\\r\n|\\.|(?!\2).)*\2|(#[^\n]*)", re.DOTALL)

# ---- running


def name_of(number):
    return f"p{number}/BUILD"


def lines_of(count):
    """Lines of operands that add a rule to each file, see that it is there, and take it back."""
    commands = ["new torn_kind torn_name|//p{}:__pkg__", "print name|//p{}:torn_name", "undo|//p{}:__pkg__"]
    return "".join(command.format(number) + "\n" for number in range(count) for command in commands).encode()


def comments(text):
    """How often each comment occurs in a text."""
    return collections.Counter(found[3].rstrip(b" \t\r") for found in QUOTED.finditer(text) if found[3])


class Runs(Wrong):
    """The runs of both programs over some texts, each in a package of its own, and what is wrong with them."""

    def __init__(self, programs, texts):
        super().__init__()
        self.buildozer, self.buildifier, _cases = programs
        self.texts = texts
        self.names = [name_of(number) for number in range(len(texts))]

    def left(self, folder):
        return [pathlib.Path(folder, name).read_bytes() for name in self.names]

    def edit_and_undo(self, folder):
        """Gives the lines on those that are refused, by their numbers."""
        put(folder, {"lines": lines_of(len(self.texts))})
        status, out, err = ended([self.buildozer, "-k", "-f", "lines"], folder)
        refused = {int(found[1]): found[0] for found in REFUSED.finditer(err)}
        self.expect("lines of buildozer", err, b"".join(refused.values()))
        self.expect("status of buildozer", status, 2 if refused else 3)
        self.expect("rules that were added", out, b"torn_name\n" * (len(self.texts) - len(refused)))
        for name, before, after in zip(self.names, self.texts, self.left(folder)):
            self.expect(f"{name} after an undo", after, before)
        return refused

    def without_notes(self, words, folder):
        """What a run leaves, but for notes on names with characters outside of ASCII, which texts of pieces have."""
        left = ended(words, folder)
        return left._replace(err=b"".join(line for line in left.err.splitlines(True) if not line.startswith(b"buildifier: note: ")))

    def format(self, folder, refused):
        lines = b"".join(refused[number] for number in sorted(refused))
        wanted = (1 if refused else 0, b"", lines)
        self.expect("formatting", self.without_notes([self.buildifier, *self.names], folder), wanted)
        formatted = self.left(folder)
        self.expect("formatting twice", self.without_notes([self.buildifier, "--mode=check", *self.names], folder), wanted)
        for number, (before, after) in enumerate(zip(self.texts, formatted)):
            if number in refused:
                self.expect("a refused text", after, before)
            elif comments(before) != comments(after):
                self.wrong.append(f"comments of {before!r}: {after!r}"[:600])

    def all_wrong(self):
        """What is wrong, and the texts that are refused."""
        with new_folder() as folder:
            put(folder, dict(zip(self.names, self.texts)))
            refused = self.edit_and_undo(folder)
            self.format(folder, refused)
        return self.wrong, {self.texts[number]: line for number, line in refused.items()}


def tried(programs, texts):
    """What is wrong in the runs over texts, and the line on each that is refused."""
    wrong, refused = [], {}
    for start in range(0, len(texts), BATCH):
        faults, lines = Runs(programs, texts[start : start + BATCH]).all_wrong()
        wrong += faults
        refused |= lines
    return wrong, refused


# ---- torn texts


def torn(texts):
    """Every beginning of them, and every removal of one byte, each once."""
    short = [text for text in texts if len(text) <= LONGEST]
    beginnings = (text[:length] for text in short for length in range(len(text) + 1))
    removals = (text[:at] + text[at + 1 :] for text in short for at in range(len(text)))
    return list(dict.fromkeys([*beginnings, *removals]))


def torn_texts_of(texts):
    return lambda programs: tried(programs, sample(torn(texts), SAMPLE))[0]


# ---- deep texts: what is before and after what is nested in it, how many levels that is, and how many there are at least in
# the middle, where a part beside what is nested is as deep

NESTS = {
    "list": ("[", "]", 1),
    "list of two": ("[b, ", "]", 1),
    "parentheses": ("(", ")", 1),
    "tuple": ("(", ",)", 1),
    "call": ("f(", ")", 1),
    "call of a call": ("", "()", 1),
    "index": ("a[", "]", 1),
    "index of an index": ("", "[0]", 1),
    "slice from": ("a[", ":]", 1),
    "slice to": ("a[:", "]", 1),
    "slice by": ("a[::", "]", 1),
    "slice of a slice": ("", "[:]", 1),
    "row in an index": ("a[b, ", "]", 2),
    "dot": ("", ".b", 1),
    "not": ("not ", "", 1),
    "plus": ("+", "", 1),
    "minus": ("- ", "", 1),
    "tilde": ("~", "", 1),
    "conditional": ("a if b else ", "", 1),
    "condition": ("(a if ", " else b)", 2),
    "chosen value": ("(", " if a else b)", 2),
    "comprehension": ("[", " for a in b]", 1, 1),
    "source of a comprehension": ("[a for a in ", "]", 2),
    "variable of a comprehension": ("[a for f(", ") in b]", 3),
    "filter of a comprehension": ("[a for a in b if ", "]", 2),
    "dict comprehension": ("{a: ", " for a in b}", 2),
    "key of a dict comprehension": ("{", ": a for a in b}", 2),
    "value of a dict": ("{a: ", "}", 2),
    "key of a dict": ("{", ": a}", 2),
    "named argument": ("f(a = ", ")", 2),
    "starred argument": ("f(*", ")", 2),
    "argument of two stars": ("f(**", ")", 2),
}
OPERATORS = ["or", "and", "==", "in", "not in", "|", "^", "&", "<<", ">>", "+", "-", "*", "/", "//", "%"]
NESTS |= {f"right of {sign}": (f"(a {sign} ", ")", 2) for sign in OPERATORS}
NESTS |= {f"left of {sign}": ("(", f" {sign} a)", 2) for sign in OPERATORS}


def nested(nest, levels):
    """A text of so many levels; parentheses in the middle make up for what the construct can't."""
    before, after, each, *least = nest
    # the file, its line and the statement are three
    count, rest = divmod(levels - 3 - sum(least), each)
    rest += sum(least)
    return (before * count + "(" * rest + "a" + ")" * rest + after * count + "\n").encode()


def levels_at_the_limit(programs):
    accepted = {nested(nest, LEVELS): name for name, nest in NESTS.items()}
    deeper = {nested(nest, LEVELS + 1): name for name, nest in NESTS.items()}
    wrong, refused = tried(programs, [*accepted, *deeper])
    wrong += [f"{name} at {LEVELS} levels: {refused[text]}" for text, name in accepted.items() if text in refused]
    too_deep = {text for text, line in refused.items() if b": TooDeep\n" in line}
    return wrong + [f"{name} at {LEVELS + 1} levels is not TooDeep" for text, name in deeper.items() if text not in too_deep]


def far_too_many_levels(programs):
    """Also where the text ends before what is nested does."""
    texts = {}
    for count in [2 * LEVELS, 20_000, 200_000] if WHOLE else [2_000]:
        for name, (before, after, *_) in NESTS.items():
            texts[(before * count + "a" + after * count).encode()] = f"{name}, {count} times"
            texts[(before * count).encode()] = f"{name}, {count} times without its end"
    texts.pop(b"", None)
    wrong, refused = tried(programs, list(texts))
    return wrong + [f"{name} is accepted" for text, name in texts.items() if text not in refused]


# ---- made texts


def texts_of_pieces():
    x, found = 1, []
    for _ in range(TEXTS_OF_PIECES):
        text = ""
        for _ in range(LENGTH):
            x = (1103515245 * x + 12345) % 2147483648
            text += PIECES[x // 65536 % 16]
        found.append(text.encode())
    return found


def pieces_by_chance(programs):
    texts = sample(texts_of_pieces(), 4 * SAMPLE)
    wrong, refused = tried(programs, texts)
    return wrong + [f"{text} is accepted" for text in texts if text not in refused]


def texts_by_the_grammar(programs):
    texts = list(dict.fromkeys(map(grammar.text, sample(range(TEXTS_OF_GRAMMAR), SAMPLE))))
    wrong, refused = tried(programs, texts)
    return wrong + [f"{text} is refused: {line}" for text, line in refused.items()]


# ---- long texts, which buildifier formats piece by piece, and buildozer whole

# how many bytes a long text has at least, and how many of them are made
LONG = 100_000
LONG_TEXTS = 40


def long_text(number):
    """Texts by the grammar, one after another."""
    text, seed = b"", 1000 * number
    while len(text) < LONG:
        text += grammar.text(seed).rstrip(b"\\") + b"\n"
        seed += 1
    return text


def long_texts_by_both_programs(programs):
    """What buildozer leaves of a long text, which gets a rule and loses it again, is what buildifier makes of it."""
    buildozer, buildifier, _cases = programs
    wrong = []
    for text in map(long_text, sample(range(LONG_TEXTS), 5)):
        with new_folder() as folder:
            put(folder, {name_of(0): text, name_of(1): text})
            edits = [ended([buildozer, command, f"//p0:{rule}"], folder).status for command, rule in (("new torn_kind torn_name", "__pkg__"), ("delete", "torn_name"))]
            formats = ended([buildifier, name_of(1)], folder)
            left = [pathlib.Path(folder, name_of(number)).read_bytes() for number in range(2)]
            if edits != [0, 0] or formats[0] or left[0] != left[1]:
                wrong.append(f"{text[:60]!r} of {len(text)} bytes: {edits}, {formats}")
    return wrong


# ---- copies


def all_is_copied(programs):
    """What deep texts and those by the grammar say is copied; torn texts may be refused, but for the rows themselves."""
    accepted = [nested(nest, LEVELS) for nest in NESTS.values()] + list(map(grammar.text, sample(range(TEXTS_OF_GRAMMAR), SAMPLE)))
    maybe = [text for text in sample(torn(worked_rows.texts()), SAMPLE) if b"\0" not in text]
    run = subprocess.run([programs[2], "copies"], input=b"\0".join([*accepted, *maybe]), capture_output=True, timeout=PATIENCE)
    lines = run.stdout.decode().splitlines()
    wrong = [f"copies end with {run.returncode}"] if run.returncode else []
    wrong += [f"{text[:80]!r} is {line}" for text, line in zip(accepted, lines) if line != "copied"]
    wrong += [f"{text!r} is {line}" for text, line in zip(maybe, lines[len(accepted) :]) if line not in ("copied", "refused")]
    return wrong + [f"{len(lines)} lines of {len(accepted) + len(maybe)}"] * (len(lines) != len(accepted) + len(maybe))


TEXTS_TRIED = {
    "beginnings and removals of the rows": torn_texts_of(worked_rows.texts()),
    "beginnings and removals of odd texts": torn_texts_of(TEXTS.values()),
    "as many levels as a tree may have, and one more": levels_at_the_limit,
    "far too many levels": far_too_many_levels,
    "texts of pieces are refused": pieces_by_chance,
    "texts by the grammar are accepted": texts_by_the_grammar,
    "long texts are formatted as buildozer writes them": long_texts_by_both_programs,
    "all that they say is copied": all_is_copied,
}
SCENES = Scenes(__file__, TEXTS_TRIED)

if __name__ == "__main__":
    SCENES.main()
