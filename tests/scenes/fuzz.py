#!/usr/bin/env python3
"""Runs both built programs over mutants of texts, command lines and files of lines, for a while, and looks for what must not be.

That is a run that ends by a signal or takes more than ten seconds of a processor; a status that the pages do not have; and a
difference between two ways to one end: a text formatted once and twice, checked and formatted, formatted as standard input and as a
file; the text of --stdout and the file that is written; commands of one run, and of a run each; a rule that is added and taken
back, and the bytes as they were; a file that is reported as refused, and its bytes after that.

Each case is made from its number alone. A case that shows something is printed with its number, its words, its standard input and
its files, and the run ends with status 1; the number repeats it.

    tests/scenes/fuzz.py BUILDOZER BUILDIFIER                 cases by chance for MINUTES=10 of the clock
    tests/scenes/fuzz.py BUILDOZER BUILDIFIER SEED            the case of this number alone
    tests/scenes/fuzz.py --afl PROGRAM [WORD..]               afl-fuzz over one program, without instrumentation, where it is installed

As a part of the gate a few cases are tried, always the same.
"""

import os
import pathlib
import random
import resource
import shutil
import subprocess
import sys
import time

from lib import grammar, worked_rows
from lib.folders import files_in, new_folder, put
from lib.lines import too_far
from lib.odd_texts import BOLD, COMMANDS, REDOS, TARGETS, TEXTS, UNDOS
from lib.runs import ended
from lib.scenes import TOP, WHOLE, Scenes, named

# how many cases are a part of the gate
CASES = 4000 if WHOLE else 150
# how long a run may keep a processor busy, in seconds
SECONDS = 10
# what the pages say of the statuses
STATUSES = {"buildifier": {0, 1, 2, 3, 4}, "buildozer": {0, 1, 2, 3}}

# pieces that are put in somewhere
SPLICES = [
    b"", b"\n", b"\r\n", b"\r", b"\t", b" ", b"#", b"# c\n", b"\\", b"\\\n", b"'", b'"', b'"""', b"'''", b"(", b")", b"[", b"]", b"{", b"}",
    b",", b":", b";", b"=", b"==", b"+=", b".", b"..", b"1.", b"*", b"**", b"-", b"~", b"not ", b" in ", b" if a else ", b" for a in b",
    b"load(", b'load("//:a", "b")\n', b"lambda", b"def f():\n", b"r", b"b", b"rb", b"0x", b"1e", b"\x00", b"\x7f", b"\xff", b"\xc3",
    "\ufeff".encode(), "\u00e9".encode(), "\u2028".encode(), "\U0010ffff".encode(), b"\xed\xa0\x80", b'name = "x",', b"# keep sorted\n",
    b"# do not sort\n", b"# buildifier: leave-alone\n", b'f(name="x")\n', b'package(name="y")\n', b"$", b"`", b"|", b"%1", b"@",
]  # fmt: skip
# words of operands that are put in somewhere
WORDS = [
    "", " ", "\\", "\\ ", ":", "//", "//:", "-:", "*", "%", "%0", "%99999999999", "all", "__pkg__", "name", "$0", "$1", "${", "(", "[", "(a|b)*",
    "\u00e9", "a.b", "a..b", "0", "-1", "4294967295", "4294967296", "@", '"', "'", "\n", "\r", "=", "a=b", "a:b", "if", "kind", "x" * 300,
]  # fmt: skip
SEEDS = [*worked_rows.texts(), *TEXTS.values()]


class Found(Exception):
    """What must not be."""


class Chance(random.Random):
    """What a case is made from."""

    def odds(self, part):
        return self.random() < part

    def text(self):
        """A text: a worked one, a made one or a real one, and mutants of it."""
        text = self.choice([*SEEDS, (TOP / "examples" / "BUILD").read_bytes()]) if self.odds(0.5) else grammar.text(self.random())
        for _ in range(self.choice([0, 0, 1, 1, 2, 4, 12])):
            text = self.mutant(text)
        return text[:20_000]

    def mutant(self, text):
        at, to = sorted(self.randint(0, len(text)) for _ in range(2))
        lines = text.splitlines(keepends=True) or [b""]
        line = self.randrange(len(lines))
        count = self.choice([2, 3, 50, 498, 499, 1000])
        ways = [
            lambda: text[:at] + self.choice(SPLICES) + text[at:],
            lambda: text[:at] + self.choice(SPLICES) + text[at:],
            lambda: text[:at] + text[min(to, at + self.choice([1, 1, 1, 5, 50])) :],
            lambda: text[:at] + bytes([self.randrange(256)]) + text[at + 1 :],
            lambda: text[:at] + bytes([text[at] ^ 1 << self.randrange(8)]) + text[at + 1 :] if at < len(text) else text,
            lambda: b"".join([*lines[:line], lines[line] * self.randint(0, 3), *lines[line + 1 :]]),
            lambda: text.replace(b"\n", b"\r\n"),
            lambda: text.rstrip(b"\n"),
            lambda: text[:at] + self.choice([b"[", b"(", b"not ", b"-", b"f(", b"{a:"]) * count + text[at:],
            lambda: text[:at] + b"[" * count + text[at:to] + b"]" * count + text[to:],
            lambda: text[:at] + self.choice(SEEDS) + text[to:],
            lambda: text + b"\n" + grammar.text(self.random()),
        ]
        return self.choice(ways)()

    def command(self):
        """A command by the tables, at times with odd words in it."""
        command = self.choice([*COMMANDS, *BOLD, *UNDOS, *REDOS])
        if self.odds(0.75):
            return command
        words = command.split(" ")
        at = self.randrange(len(words) + 1)
        return " ".join([*words[:at], *self.choices(WORDS, k=self.choice([1, 1, 2])), *words[at + self.choice([0, 1]) :]])

    def target(self, package="-"):
        target = self.choice(TARGETS).replace("-", package, 1)
        return target if self.odds(0.9) else target + self.choice(WORDS)


# ---- running


class Runs:
    """The runs of one case in a folder of its own, each of which is kept, to report it."""

    def __init__(self, programs, folder):
        self.programs = programs
        self.folder = folder
        self.kept = []

    def run(self, program, words, text=b""):
        """The status and both outputs. A word that no process can be given is none."""
        words = [word.replace("\0", "") for word in words]
        self.kept.append((program, words, text, files_in(self.folder)))
        limit = lambda: resource.setrlimit(resource.RLIMIT_CPU, (SECONDS, SECONDS + 1))
        try:
            left = ended([self.programs[program], *words], self.folder, input=text, preexec_fn=limit)
        except subprocess.TimeoutExpired:
            raise Found(f"{program} hangs") from None
        if left.status not in STATUSES[program]:
            raise Found(f"{program} ends with {left.status}: {left.err[-500:]!r}")
        return left

    def same(self, what, is_, wanted):
        if is_ != wanted:
            raise Found(f"{what}: {is_!r}, and not {wanted!r}")


def formats(runs, chance):
    """A text by both ways, twice, and checked."""
    text = chance.text()
    put(runs.folder, {"f": text})
    status, out, err = runs.run("buildifier", [], text)
    checked = runs.run("buildifier", ["--mode=check"], text)
    differs = status == 0 and out != text
    runs.same("check", checked, (4 if differs else status, b"<stdin> # reformat\n" if differs else b"", err))
    runs.same("print_if_changed", runs.run("buildifier", ["--mode=print_if_changed"], text), (status, out if differs else b"", err))
    runs.same("a file", runs.run("buildifier", ["f"]), (status, b"", err.replace(b"<stdin>", b"f")))
    runs.same("the file", files_in(runs.folder), {"f": out if status == 0 else text})
    if status == 0:
        runs.same("formatting twice", runs.run("buildifier", [], out), (0, out, b""))


def undoes(runs, chance):
    """A rule that is added to a file and taken back, and a text that is refused by both programs by the same line."""
    text = chance.text()
    put(runs.folder, {"BUILD": text})
    refused = runs.run("buildifier", ["--mode=check", "BUILD"])
    status, out, err = runs.run("buildozer", ["new zz_kind zz_name", "undo", "redo", "undo", "//:__pkg__"])
    if refused[0] == 1:
        runs.same("a refused text", (status, out, err), (2, b"", refused[2]))
    elif status != 2:
        runs.same("undo", (status, out, err), (3, b"", b""))
    elif refused[0] in (0, 4):
        raise Found(f"a command is refused: {err}")
    runs.same("the file", files_in(runs.folder), {"BUILD": text})


def one_by_one(runs, chance):
    """Commands of one run, and a run for each; and undo of all of them."""
    text, target = chance.text(), chance.choice(TARGETS)
    commands = [chance.choice(BOLD) for _ in range(chance.randint(1, 4))]
    first = runs.run("buildozer", ["--", "print", "-:all"], text)
    together = runs.run("buildozer", ["-k", "--", *commands, target], text)
    if first[0] == 2:
        return runs.same("a refused text", together, (2, b"", first[2]))
    texts, lines, failed = [text], b"", False
    for command in commands:
        status, out, err = runs.run("buildozer", ["--", command, target], texts[-1])
        lines, failed = lines + err, failed or status == 2
        texts += [out] if out != texts[-1] else []
    status = 2 if failed else 0 if texts[-1] != text else 3
    runs.same("one by one", (status, texts[-1], lines), together)
    back = f"undo {max(len(texts) - 1, 1)}"
    undone = runs.run("buildozer", ["-k", "--", *commands, back, target], text)
    told = b"" if len(texts) > 1 else too_far(back)
    return runs.same("undo", undone, (2 if failed or told else 3, text, lines + told))


def both_outputs(runs, chance):
    """The texts that --stdout shows and the files that are written are the same; and those of a file of lines."""
    files = {f"{package}/{chance.choice(['BUILD', 'BUILD.bazel'])}": chance.text() for package in chance.sample(["a", "b", "c/d"], 2)}
    lines = []
    for name in files:
        package = name.rpartition("/")[0]
        lines.append("|".join([*(chance.choice([*COMMANDS, *UNDOS]) for _ in range(chance.randint(1, 3))), chance.choice(TARGETS).replace("-", package, 1)]))
    put(runs.folder, files)
    script = "".join(line + "\n" for line in lines).encode()
    shown = runs.run("buildozer", ["-k", "--stdout", "-f", "-"], script)
    runs.same("files after --stdout", files_in(runs.folder), files)
    put(runs.folder, {"lines": script})
    written = runs.run("buildozer", ["-k", "--quiet", "-f", "lines"])
    after = files_in(runs.folder)
    runs.same("status and lines", (written[0], written[2]), (shown[0], shown[2]))
    changed = b"".join(after[name] for name in files if after[name] != files[name])
    runs.same("what is shown", shown[1], written[1] + changed)


def odd_words(runs, chance):
    """Words of all sorts: what is refused leaves all as it was, and a fault of usage shows nothing."""
    files = {"BUILD": chance.text(), "a/BUILD": chance.text()}
    put(runs.folder, files)
    options = [option for option in ("-k", "--quiet", "--stdout", "-f", "--", "--none", "-h", "-kk", "--std") if chance.odds(0.15)]
    operands = [chance.command() for _ in range(chance.randint(0, 3))] + [chance.target(chance.choice(["", "//", "//a", "a", "-", "//./a"])) for _ in range(chance.randint(0, 2))]
    if chance.odds(0.2):
        chance.shuffle(operands)
    status, out, _ = runs.run("buildozer", [*options, *operands], chance.text())
    if status == 1:
        runs.same("a fault of usage", (out, files_in(runs.folder)), (b"", files))
    if "--stdout" in options:
        runs.same("files after --stdout", files_in(runs.folder), files)
    runs.run("buildifier", [*options, *chance.sample(["BUILD", "a/BUILD", "a", "none", "", "--mode=check", "--mode=", "--mode"], 2)], chance.text())


def odd_lines(runs, chance):
    """A file of lines that is a mutant of a good one."""
    files = {"BUILD": chance.text(), "a/BUILD": chance.text()}
    lines = ["|".join([chance.command() for _ in range(chance.randint(1, 3))] + [chance.target(chance.choice(["//", "//a"]))]) for _ in range(chance.randint(1, 4))]
    script = "".join(line + "\n" for line in lines).encode()
    for _ in range(chance.choice([0, 1, 3])):
        script = chance.mutant(script)
    put(runs.folder, {**files, "lines": script})
    status, out, _ = runs.run("buildozer", [*(["-k"] if chance.odds(0.7) else []), "-f", "lines"])
    after = files_in(runs.folder)
    runs.same("the lines", after.pop("lines"), script)
    if status == 1:
        runs.same("a fault of usage", (out, after), (b"", files))
    if status == 3:
        runs.same("files after status 3", after, files)
    for text in after.values():
        if runs.run("buildifier", ["--mode=check"], text)[0] not in (0, 1, 3, 4):
            raise Found("what was written is no text")


KINDS = [formats, undoes, one_by_one, both_outputs, odd_words, odd_lines]


def case(programs, seed):
    """What is wrong in the case of a number: a text that says how to repeat it; none where nothing is."""
    chance = Chance(seed)
    kind = chance.choice(KINDS)
    with new_folder() as folder:
        runs = Runs(programs, folder)
        try:
            kind(runs, chance)
        except Found as found:
            told_runs = "".join(f"\n  {program} {words!r}\n    standard input {text!r}\n    files {files!r}" for program, words, text, files in runs.kept)
            return f"case {seed} ({kind.__name__}): {found}{told_runs}"
    return ""


def by_their_names(programs):
    return dict(zip(["buildozer", "buildifier"], programs))


def cases_by_chance(programs):
    return [wrong for seed in range(1, CASES + 1) if (wrong := case(by_their_names(programs), seed))]


SCENES = Scenes(__file__, named(cases_by_chance))


def for_a_while(programs, minutes):
    """Cases that are new each time, until one shows something or the time is over; the status."""
    start, seed, count = time.monotonic(), int(time.time()) * 1_000_000, 0
    while time.monotonic() - start < minutes * 60:
        wrong = case(programs, seed + count)
        count += 1
        if wrong:
            print(wrong)
            return 1
    print(f"{count} cases in {minutes:g} minutes, from {seed} on, and nothing was found")
    return 0


def by_afl(words):
    """Has afl-fuzz find texts for standard input on which a program crashes, without instrumentation; the status."""
    if not shutil.which("afl-fuzz"):
        print("afl-fuzz is not installed")
        return 1
    seconds = str(int(float(os.environ.get("MINUTES", "10")) * 60))
    with new_folder() as folder:
        put(folder, {f"in/{number}": text for number, text in enumerate(SEEDS) if 0 < len(text) < 1000})
        environment = {**os.environ, "AFL_SKIP_CPUFREQ": "1", "AFL_I_DONT_CARE_ABOUT_MISSING_CRASHES": "1", "AFL_NO_UI": "1"}
        command = ["afl-fuzz", "-n", "-V", seconds, "-i", "in", "-o", "out", "--", str(pathlib.Path(words[0]).resolve()), *words[1:]]
        subprocess.run(command, cwd=folder, env=environment, check=False)
        crashes = [file for file in pathlib.Path(folder, "out").rglob("crashes*/id*")]
        for file in crashes:
            print(f"{words[0]} crashes on {file.read_bytes()!r}")
    return 1 if crashes else 0


def main(words):
    if words[:1] == ["--afl"]:
        return by_afl(words[1:])
    programs = by_their_names(pathlib.Path(word).resolve() for word in words)
    if words[2:]:
        wrong = case(programs, int(words[2]))
        print(wrong or "nothing was found")
        return 1 if wrong else 0
    if "MINUTES" in os.environ:
        return for_a_while(programs, float(os.environ["MINUTES"]))
    return SCENES.main()


if __name__ == "__main__":
    sys.exit(main(sys.argv[1:]))
