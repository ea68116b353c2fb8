#!/usr/bin/env python3
"""Compares what the built program buildozer leaves after many commands in one run with a plain list of whole texts.

A session keeps one tree and the steps between its texts, and makes each text from these. Here a list of whole texts and a cursor
does the same work: the text that a command makes comes from a run of that one command over the whole text then present, and is
appended after the cursor, where it differs; `undo` and `redo` move the cursor. Both must leave the same text, printed lines,
lines on standard error and status. So what one run shows is that of the runs of its commands one by one, and what undo gives
back are the very bytes that were there.

The lists are those of tests/buildozer, of the program's own files and of the pages' examples, as far as they are about standard
input; fixed ones, in which each command of the tables of docs/buildozer.md is; and many that are made by chance, always the same, over
texts that are laid out oddly. Of all but the last each beginning is run too, and each also without -k.

    tests/scenes/sessions.py PROGRAM
"""
import collections
import contextlib
import hashlib
import pathlib
import random
import shlex
import subprocess
import tempfile

from lib.lines import too_far
from lib.odd_texts import BOLD, COMMANDS, NAMES, REDOS, TARGETS, TEXTS, TWIN, UNDOS
from lib.pages import CODE, COMMAND, different_from_code, named_examples, rows_of
from lib.runs import ended
from lib.scenes import PROCESSORS, TOP, Scenes

# How many lists are made, of how many commands at most, and how often one is an undo or a redo: after one of these, and after
# another command.
LISTS = 2000
LONGEST = 12
GOES_ON = 0.6
GOES = 0.25

# Commands that print, and leave the text.
PRINTS = ["print", "print_comment", "journal"]
# Options that change nothing of what is on the outputs where only standard input is edited, but for -k.
OPTIONS = ["-k", "--quiet", "--stdout"]

# commands that each target gets, in order, of one run over a text
Work = collections.namedtuple("Work", "commands targets text keeps_going", defaults=[True])

# ---- fixed lists: a name, the text, the target, and the commands

FIXED = [
    ("what is cut by a new text is gone", "laid out", "-:x",
     "add deps :c|add deps :d|undo 2|redo|set size small|redo|undo|undo|redo 2|redo"),
    ("refused moves leave the cursor", "tabs and spaces", "-:x",
     "redo|undo|delete|undo 2|redo|undo|redo 2|undo|redo|undo 4294967295|redo 4294967295|undo"),
    ("a command that changes nothing cuts nothing", "laid out", "-:x",
     "add deps :c|undo|add deps :a|set srcs a.c|remove size|print deps|redo|print deps|undo"),
    ("a command that is refused cuts nothing", "dicts", "-:x",
     "set size large|undo|add env :a|rename size env|move size deps *|redo|undo|dict_add size A:1|redo"),
    ("a text that comes again is a further text", "tabs and spaces", "-:y",
     "add deps :c|remove deps :c|add deps :c|undo|undo|undo|redo 3|undo 2|redo 2|redo"),
    ("rules come", "comments everywhere", "-:__pkg__",
     "new cc_test z|new f w before x|new g.h v after x|undo 2|new cc_test z|redo|new cc_test u before none|new f x|undo|redo|undo 3"),
    ("rules go", "comments everywhere", "-:x", "delete|undo|delete|delete|undo|redo|undo"),
    ("all rules go", "many on a line", "-:all", "delete|print|undo|print|redo|new f z|undo 2|print startline"),
    ("values are set", "ends of lines with carriage returns", "-:x",
     "set deps :y|undo|redo|set deps :y|set testonly True|set linkstatic 1|set srcs a b|set kind native.f|undo 4|redo 3|undo 5|undo"),
    ("values are set where they are absent", "dicts", "-:all",
     "set_if_absent size large|undo|set_if_absent deps :a|set_if_absent deps :b|undo|redo|undo 2|redo 2"),
    ("values are added", "select and sums", "-:x",
     "add deps :b :e|add copts -g|undo|add srcs :f|undo|redo|add name a|undo 2|add deps //-:a|redo"),
    ("values are removed", "select and sums", "-:x",
     "remove deps :a|remove deps :b|undo|redo|remove deps|remove *|undo|remove srcs b.c|undo 2|redo 2|undo 9"),
    ("the last value goes with its attribute", "no newline at the end", "-:x",
     "remove deps :a|undo|redo|add deps :a|undo 2|remove deps :a|redo"),
    ("values are replaced", "marks that steer", "-:all",
     "replace deps :b :z|undo|replace * :a //-:z|redo|undo|replace srcs b.c c.c|undo 2|redo"),
    ("values are substituted", "strings of all kinds", "-:x",
     r"substitute srcs (.*)\.c$ $1.cc|undo|substitute * ^(?P<first>.) ${first}_|redo|undo|substitute linkopts l m|substitute deps b bb|undo 3|redo"),
    ("values are moved", "comments everywhere", "-:x",
     "move deps runtime_deps :a|undo|redo|move deps runtime_deps *|undo 2|move deps exports :none|move deps exports * |redo|undo"),
    ("attributes are renamed", "newlines that are escaped", "-:x",
     "rename deps data|undo|redo|rename data deps|rename deps deps|undo 2|redo|rename none deps|undo|redo 2"),
    ("attributes are copied", "rules that are alike", "-:y",
     "copy deps x|set size small|copy_no_overwrite size x|undo|copy_no_overwrite testonly x|copy deps y|undo 2|redo 2"),
    ("attributes are copied where they are absent", "tabs and spaces", "-:x",
     "copy_no_overwrite deps y|copy_no_overwrite srcs y|undo|redo|copy deps y|copy srcs y|undo 2"),
    ("entries come and go", "dicts", "-:x",
     "dict_add env C:9 D:4 D:5|undo|redo|dict_set env A:2 E:\\ e|dict_set substitutions k:v|undo 2|dict_remove env A B C|redo|undo|dict_remove env none|dict_add more k:v|undo"),
    ("a dict of its own", "laid out", "-:y", "dict_add env A:1|dict_remove env A|undo|redo|dict_set env A:1|undo 3|redo 3"),
    ("values go from all attributes", "select and sums", "-:x", "remove * :a|undo|redo|remove * :b b.c|remove * none|undo 2|redo"),
    ("attributes go where they have a value", "laid out", "-:all",
     "set size small|remove_if_equal size large|remove_if_equal size small|undo|redo|remove_if_equal deps :a|undo 2|set testonly 1|remove_if_equal testonly 1|undo"),
    ("values of keys change", "dicts", "-:x",
     "dict_replace_if_equal env A 1 2|undo|dict_set env N:1|dict_replace_if_equal env N 1 True|dict_replace_if_equal env N 1 True|dict_replace_if_equal none A 1 2|redo|undo 2|redo 2"),
    ("values go to the lists of keys", "dicts", "-:x",
     "dict_list_add lists K a b|dict_list_add lists K b c|dict_list_add lists K a|undo|redo|dict_list_add env A x|dict_list_add deps K x|undo 2"),
    ("attributes become a select", "select and sums", "-:x",
     "set_select deps //c:x :a //c:x :b //conditions:default :c|set_select deps //c:x :a|undo|redo|set_select size //c:x 1 //c:x small|set_select size //c:x small|undo 3|redo"),
    ("comments come and go", "comments everywhere", "-:x",
     "comment why\\ not|comment deps because|comment deps :b the\\ other|print_comment deps :b|undo 2|print_comment|remove_comment deps :a|undo|redo|remove_comment|remove_comment deps|undo 9|undo 4|redo 2|print_comment deps"),
    ("comments are printed of each text", "ends of lines with carriage returns", "-:all",
     "print_comment deps|comment all\\ of\\ them|print_comment|undo|print_comment|redo|remove_comment|print_comment|print rule|undo 2"),
    ("lines are printed of each text", "many on a line", "-:all",
     "print|print startline name|new f z before x|print startline name rule|undo|print startline deps|redo|print kind testonly|undo"),
    ("printing alone", "loads", "-:x", "print|print rule deps|print none"),
    ("printing and going nowhere", "loads", "-:x", "print|undo|redo|print deps"),
    ("texts are listed", "tabs and spaces", "-:x",
     "journal|set size small|journal|set size small|add deps  :c //lib:d|undo|journal|comment a\\ b|journal|undo 2|journal|redo|delete|delete|journal"),
    ("loads come", "loads", "-:__pkg__",
     "new_load //:defs.bzl a my_b=b|new_load //:b.bzl fifth other|undo|redo|new_load //:b.bzl fifth|undo 2|new_load c.bzl z|redo"),
    ("loads come where there is none", "many on a line", "-:__pkg__", "new_load //:defs.bzl a|undo|redo|new_load //:defs.bzl a b|undo 2"),
    ("paths of loads change", "loads", "-:__pkg__", "substitute_load b.bzl$ c.bzl|undo|redo|substitute_load none x|substitute_load ^(.*)$ @r$1|undo 2"),
    ("symbols come from another path", "loads", "-:__pkg__", "replace_load //:defs.bzl a my_b=b|undo|redo|replace_load //:b.bzl fifth a|undo 2|redo|replace_load //:b.bzl a"),
    ("repositories without an extension", "loads", "-:__pkg__", "use_repo_add deps org_a|new_load //:b.bzl b|use_repo_remove deps org_a|undo|use_repo_add //:e.bzl deps c=d"),
    ("rules come next to the package", "loads", "-:__pkg__", "new f z before __pkg__|undo|new f z after __pkg__|new f y after __pkg__|undo|redo"),
    ("loads go, and the package goes up", "loads", "-:__pkg__",
     "fix unusedLoads|undo|fix movePackageToTop|fix|undo 2|redo|fix|undo|undo|fix|fix|undo"),
    ("a file of no text", "no text", "-:__pkg__", "new f x|undo|print|new g y|new_load a b|undo 2|redo 2|undo|delete|redo"),
    ("a file of comments", "comments alone", "-:all", "delete|new f x|undo|redo|fix|new_load a b|undo 2|undo"),
    ("a format is a step", "tabs and spaces", "-:none -:x", "format|undo|redo|format|set size small|undo 2|redo|print name deps|format"),
    ("a format after others", "many on a line", "-:all", "set size small|undo|format|print startline|undo|redo|format|delete|undo 2"),
    ("two targets in turn", "rules that are alike", "-:x -:y", "set size small|undo|redo|add deps :c|print deps size|undo"),
    ("a rule that goes under a target", "rules that are alike", "-:%1", "delete|delete|undo|delete|undo 2|redo|print name kind startline"),
    ("a name that changes under a target", "laid out", "-:x", "set name z|set size small|undo|set name z|redo|print|undo"),
    ("a text past the levels", "laid out", "-:x", "set kind " + ".".join(["k"] * 600) + "|set size small|undo|redo"),
    ("a rule that is left alone", "marks that steer", "-:y", "print rule|add deps :c|undo|print rule|redo|set kind f|undo 2"),
    ("rules of a long file come and go", "many rules", "-:r250 -:r4 -:r519",
     "delete|print|undo|print name|redo|undo 2|new f z before r5|new f y after r519|set size small|delete|undo|redo|undo 3"),
    ("a long file gets many commands", "many rules", "-:r7 -:r300",
     "print name|print name deps|print kind startline|set size small|print size|print name size|delete|print name|undo|print name|redo|print name"),
    ("loads of a long file come", "many rules", "-:__pkg__",
     "new_load //:b.bzl b|new_load //:a.bzl a|new_load //:a.bzl a2|new_load //:c.bzl c|undo 2|new_load :d.bzl d|redo|undo 4|new cc_library s before r0|new_load //:a.bzl a|undo 2|redo"),
    ("one of two equal rules goes", "many rules", f"-:%{TWIN}", "set size small|undo|delete|print|undo|redo|delete|undo 2|redo"),
    ("many rules of a long file go", "many rules", "-:%cc_library", "set size small|delete|undo|delete|new f z|undo 2|redo|undo"),
]  # fmt: skip

# ---- the program


def words_of(work):
    return ["-k"] * work.keeps_going + ["--", *work.commands, *work.targets]


class Program:
    """The built program; of each run of one command what it left is kept."""

    def __init__(self, path):
        self.path = path
        self.known = {}

    def ended(self, work):
        """The status, standard output and standard error of a run."""
        return ended([self.path, *words_of(work)], None, input=work.text)

    def alone(self, command, target, text):
        key = command, target, text
        if key not in self.known:
            self.known[key] = self.ended(Work([command], [target], text))
        return self.known[key]


# ---- the plain list


class Plain:
    """Texts, the commands that led to those after the first one, and a cursor; beside them what was printed and reported, and whether a
    command failed."""

    def __init__(self, program, text):
        self.program = program
        self.texts, self.notes, self.cursor = [text], [""], 0
        self.printed, self.told, self.failed = b"", b"", False

    def present(self):
        return self.texts[self.cursor]

    def goes(self, command, steps):
        place = self.cursor + steps
        if 0 <= place < len(self.texts):
            self.cursor = place
        else:
            self.told += too_far(command)
            self.failed = True

    def does(self, command, target):
        status, out, err = self.program.alone(command, target, self.present())
        self.told += err
        self.failed |= status == 2
        if is_printing(command):
            self.printed += out
        elif out != self.present():
            self.texts[self.cursor + 1 :] = [out]
            self.notes[self.cursor + 1 :] = [" " + command]
            self.cursor += 1

    def lists(self):
        for number, (text, note) in enumerate(zip(self.texts, self.notes)):
            mark = "*" if number == self.cursor else " "
            self.printed += f"{mark} {number} {hashlib.sha256(text).hexdigest()}{note}\n".encode()

    def step(self, command, target):
        name, *words = command.split()
        count = int(words[0]) if words[:1] and name in ("undo", "redo") else 1
        if name == "undo":
            self.goes(command, -count)
        elif name == "redo":
            self.goes(command, count)
        elif name == "journal":
            self.lists()
        else:
            self.does(command, target)


def is_printing(command):
    return command.split()[0] in PRINTS


def of_plain_list(program, work):
    """What a run must leave: its status, standard output and standard error."""
    status, _, fault = program.alone("print", "-:all", work.text)
    if status == 2:
        # the text is refused, which is reported once, and no command has a file
        return 2, b"", fault
    plain = Plain(program, work.text)
    for target in work.targets:
        for command in work.commands:
            if work.keeps_going or not plain.failed:
                plain.step(command, target)
    is_shown = not all(map(is_printing, work.commands))
    status = 2 if plain.failed else 3 if plain.present() == work.text else 0
    return status, plain.printed + (plain.present() if is_shown else b""), plain.told


# ---- comparing


def by_hand(work):
    """The run as a line of a shell."""
    text = work.text.decode(errors="backslashreplace").replace("\\", "\\\\")
    for character, escape in ("\n", "\\n"), ("\r", "\\r"), ("\t", "\\t"):
        text = text.replace(character, escape)
    return f"printf '%b' {shlex.quote(text)} | buildozer {shlex.join(words_of(work))}"


def faults(program, work):
    """Where a run left something else than the plain list."""
    names = "status", "standard output", "standard error"
    left, wanted = program.ended(work), of_plain_list(program, work)
    return [f"{by_hand(work)}: {name}: {is_}, and not {want}" for name, is_, want in zip(names, left, wanted) if is_ != want]


def beginnings(work):
    """Each beginning of the work, with and without -k."""
    counts = range(1, len(work.commands) + 1)
    return [work._replace(commands=work.commands[:count], keeps_going=goes) for count in counts for goes in (True, False)]


def compared(works):
    return lambda program: [fault for work in works for fault in faults(program, work)]


# ---- where the lists come from


def work_of(words, text):
    """What the words request of standard input; None where they request something else, or are a fault."""
    if "--" not in words:
        return None
    options, operands = words[: words.index("--")], words[words.index("--") + 1 :]
    targets = [word for word in operands if " " not in word and (":" in word or word.startswith("//"))]
    commands = [word for word in operands if word not in targets]
    fits = commands and targets and set(options) <= set(OPTIONS) and all(target.startswith("-:") for target in targets)
    return Work(commands, targets, text, "-k" in options) if fits else None


def content(file):
    return file.read_bytes() if file.exists() else b""


def rows():
    """The runs over standard input that are worked out by hand, in folders of words and input."""
    folders = [TOP / "crates" / "buildozer", *sorted((TOP / "tests" / "buildozer").iterdir())]
    found = {folder.name: work_of(content(folder / "args").decode().splitlines(), content(folder / "stdin")) for folder in folders}
    return {f"row {name}": work for name, work in found.items() if work}


def an_example(block, words):
    """The words of a command of the block, which reads the file that its last word names, as an example before it made it."""

    def wrong(program):
        with tempfile.TemporaryDirectory() as folder:
            for command in COMMAND.findall(block):
                if command.startswith("printf "):
                    subprocess.run(["sh", "-c", command], cwd=folder, check=True)
            work = work_of(words[1:-2], pathlib.Path(folder, words[-1]).read_bytes())
        return compared(beginnings(work))(program)

    return wrong


def examples():
    """The examples of the pages in which buildozer reads standard input from a file."""
    commands = [(block, shlex.split(command)) for block in named_examples().values() for command in COMMAND.findall(block)]
    fitting = [(block, words) for block, words in commands if words[0] == "buildozer" and words[-2:-1] == ["<"] and work_of(words[1:-2], b"")]
    return {f"example {number}": an_example(*found) for number, found in enumerate(fitting, 1)}


def fixed():
    return {name: Work(commands.split("|"), targets.split(), TEXTS[text]) for name, text, targets, commands in FIXED}


def made(number):
    """A list of commands that is made by chance, the same for the same number, and the name of its text."""
    chance = random.Random(number)
    name = chance.choice(NAMES)
    commands, was_going = [chance.choice(BOLD)], False
    for _ in range(chance.randint(2, LONGEST) - 1):
        is_going = chance.random() < (GOES_ON if was_going else GOES)
        # there is something to redo only after an undo
        going = chance.choice([UNDOS, REDOS]) if was_going else UNDOS
        commands.append(chance.choice(going if is_going else chance.choice([COMMANDS, BOLD])))
        was_going = is_going
    return name, Work(commands, [chance.choice(TARGETS)], TEXTS[name])


def each_command(program):
    """Each command of the tables of docs/buildozer.md is in a fixed list."""
    named = {word.split()[0] for row in rows_of("Command") for word in CODE.findall(row[0])}
    used = {command.split()[0] for work in fixed().values() for command in work.commands}
    return different_from_code("commands", sorted(used), sorted(named))


def each_is_taken(program):
    """Each command from which lists are made is taken by the program, and not refused on each of the texts."""

    def is_done(command):
        return any(program.alone(command, target, text)[0] in (0, 3) for target in ("-:x", "-:all") for text in TEXTS.values())

    return [f"{command} is refused everywhere" for command in COMMANDS if not is_done(command)]


def scenes():
    found = {"each command has a list": each_command, "each command is taken": each_is_taken}
    found |= {name: compared(beginnings(work)) for name, work in {**rows(), **fixed()}.items()}
    found |= examples()
    for number in range(1, LISTS + 1):
        name, work = made(number)
        found[f"made list {number}, {name}"] = compared([work])
    return found


SCENES = Scenes(__file__, scenes(), lambda path: contextlib.nullcontext(Program(path)), lanes=PROCESSORS)

if __name__ == "__main__":
    SCENES.main()
