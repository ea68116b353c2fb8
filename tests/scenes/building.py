#!/usr/bin/env python3
"""Runs `make try` and tools/build.py with a script in place of rt, so nothing is proved or compiled: what `make try` shows of both programs and
when, the lines of a build, and how near the minutes come that it says are left.

    tests/scenes/building.py
"""
import os
import pathlib
import random
import re
import shutil
import subprocess
import sys
import tempfile

from lib.folders import in_folder, put
from lib.scenes import TOP, Scenes, different, named

sys.path.append(str(TOP / "tools"))
import plan

EXAMPLE = (TOP / "examples" / "BUILD").read_text()
# In place of rt: `try` prints its words and what it is given, buildozer after buildifier, and ends as a program that refuses where the text says
# so; `lib` and `run` leave what a proved library and a built program leave.
RT = """#!/bin/sh
name=${PWD##*/}
case $1 in
try)
    shift
    text=$(cat; echo .)
    [ "$name" = buildifier ] || sleep 1
    case $text in
    *broken*) echo "rt: this is not compiled" >&2; exit 1 ;;
    *refused*) printf '<stdin>:1:1: Unexpected\\nchecked: ended status=1\\nrun=ended status=1 runners=1 proved=no\\n' >&2; exit 1 ;;
    esac
    printf '%s\\n' "$name: $*" "${text%.}"
    printf 'checked: ended status=0\\nrun=ended status=0 runners=1 proved=no\\n' >&2 ;;
lib) [ -e out/rlib/stamp ] || { mkdir -p out/rlib && touch out/rlib/stamp && echo 'logic=proved functions=1'; } ;;
run) mkdir -p out && touch "out/$name" && printf 'logic=proved functions=1\nrt: running out/%s\n' "$name" >&2 ;;
esac
"""
CRATES = "low:\nleft: low\nright: low\ntool: left right\n"
# how far from the truth the minutes that are left may be, from which part of a run on; a minute is always near
NEAR, FROM, MINUTE = 1 / 3, 1 / 4, 60


class Clone:
    """The folder as it is cloned, but for the crates, of which there are small ones, and rt."""

    def __init__(self, _programs, path):
        self.path, self.top = path, path / "top"
        shutil.copytree(TOP / "tools", self.top / "tools", ignore=shutil.ignore_patterns("__pycache__"))
        for name in ("Makefile", "examples/BUILD"):
            (self.top / name).parent.mkdir(exist_ok=True)
            shutil.copy(TOP / name, self.top / name)
        programs = {f"crates/{name}/src/main.rt": b"" for name in ("tool", "buildozer", "buildifier")}
        put(self.top, {"crates.txt": CRATES.encode(), "HANDLES": b"", **programs, **{f"crates/{name}/src/lib.rt": b"" for name in ("low", "left", "right")}})
        put(path, {"rt": RT.encode()})
        (path / "rt").chmod(0o755)

    def run(self, *words, **variables):
        """The status and both outputs, as one, of a command at the top."""
        own = {name: value for name, value in os.environ.items() if not name.startswith(("MAKE", "MFLAGS"))}
        own |= {"PATH": f"{self.path}{os.pathsep}{own['PATH']}", **variables}
        run = subprocess.run(words, cwd=self.top, env=own, stdout=subprocess.PIPE, stderr=subprocess.STDOUT, text=True, timeout=60)
        return run.returncode, re.sub(r"after \d+ seconds", "after N seconds", run.stdout)

    def tried(self, *words):
        return self.run("make", "--no-print-directory", "try", *words)


def shown(line, *lines):
    return "\n".join(["", f"{line}    (not proved; after N seconds)", "", *lines, ""])


# ---- make try


def both_programs_are_tried(clone):
    """The example, that nothing is proved, and what the programs make of it, buildifier first."""
    status, told = clone.tried()
    front, rest = told.partition(shown("buildifier < examples/BUILD", "buildifier: "))[::2]
    wrong = different("status", status, 0) + [f"no word that it is not proved: {front}"] * ("\nNot proved: make proves them." not in front)
    wrong += different("example", front.startswith(f"\nexamples/BUILD:\n\n{EXAMPLE}"), True)
    line = "buildozer -- delete -:middle < examples/BUILD"
    return wrong + different("outputs", rest, f"{EXAMPLE}\n{shown(line, 'buildozer: -- -- delete -:middle', EXAMPLE)}")


def a_file_of_ones_own_is_tried(clone):
    """It stays as it is; buildozer prints its rules, and is not run over a .bzl file; a refusal is shown with its status."""
    texts = {"my BUILD": b"f()\n", "a.bzl": b"x = 1\n", "BUILD": b"refused\n"}
    put(clone.top, texts)
    refused = ("<stdin>:1:1: Unexpected", "status 1")
    rules = shown("buildozer -- 'print kind name' -:all < my BUILD", "buildozer: -- -- print kind name -:all", "f()\n")
    wanted = {
        "my BUILD": shown("buildifier < my BUILD", "buildifier: ", "f()\n") + rules,
        "a.bzl": shown("buildifier --type=bzl < a.bzl", "buildifier: -- --type=bzl", "x = 1\n"),
        "BUILD": shown("buildifier < BUILD", *refused) + shown("buildozer -- 'print kind name' -:all < BUILD", *refused),
    }
    wrong = []
    for name, text in texts.items():
        status, told = clone.tried(f"FILE={name}")
        wrong += different(name, (status, told[told.index("kept.\n") + 6 :]), (0, wanted[name]))
        wrong += different(f"{name} afterwards", (clone.top / name).read_bytes(), text)
    return wrong


def what_is_not_compiled_fails(clone):
    put(clone.top, {"BUILD": b"broken\n"})
    status, told = clone.tried("FILE=BUILD")
    wrong = [f"it ends with {status}"] * (status == 0)
    wrong += [f"not printed: {line}" for line in ("rt: this is not compiled", "buildifier was not run", "buildozer was not run") if line not in told]
    status, told = clone.tried("FILE=none")
    return wrong + [f"no file: {status}, {told}"] * (status == 0 or "none: No such file or directory" not in told)


# ---- what a build says


def each_crate_has_its_line(clone):
    """With how many are done, the minutes that it took, and about how many are left; the last one has none. A second build proves nothing."""
    wrong = []
    for words in (("proved", "built"), ("was proved before", "built")):
        status, told = clone.run("tools/build.py", "tool", KEEP="yes", JOBS="2")
        first, *lines = told.splitlines()
        wrong += different("the end", (status, first, len(lines)), (0, "4 crates, on 2 processors", 4))
        forms = [rf"{crate} {words[crate == 'tool']}, {at} of 4, 0 minutes" for crate, at in zip(("low", r"\w+", r"\w+", "tool"), range(1, 5))]
        left = r", (about \d+|less than one) left"
        wrong += [f"{line}, and not {form}" for form, line in zip(forms, lines) if not re.fullmatch(form + left * ("4 of" not in form), line)]
    return wrong


def played(programs, costs, processors):
    """What a build says where crates cost this many seconds: for each crate that is done when that is, and how many seconds are left by the plan.
    Proofs share the processors as the plan thinks that they do."""
    made, running, now, told = plan.Plan(programs, processors), [], 0.0, []
    left = dict(costs)
    while running or made.left:
        running += made.start(running)
        rates = dict(zip((turn.crate for turn in running), plan.rates(running, processors)))
        step = min(left[crate] / rate for crate, rate in rates.items())
        made.advance(running, step)
        now += step
        for turn in list(running):
            left[turn.crate] -= step * rates[turn.crate]
            if left[turn.crate] < 1e-6:
                running.remove(turn)
                made.end(turn, True)
                told.append((now, made.seconds_left(running)))
    return told


def minutes_that_are_left_are_near(_clone):
    """On machines that are half and twice as fast as that of the table, of two, four and eight processors, where each crate takes up to a seventh
    more or less than the table has."""
    wrong, programs = [], ["buildozer", "buildifier"]
    for processors in (2, 4, 8):
        for speed in (0.5, 1, 2):
            chance = random.Random(f"{processors} {speed}")
            costs = {crate: seconds * speed * chance.uniform(0.85, 1.15) for crate, seconds in plan.seconds_of().items()}
            told = played(programs, costs, processors)
            end = told[-1][0]
            far = [(now, left) for now, left in told if now > FROM * end and abs(left - (end - now)) > max(NEAR * (end - now), MINUTE * speed)]
            wrong += [f"{processors} processors, {speed}: {left / 60:.1f} minutes left after {now / 60:.1f} of {end / 60:.1f}" for now, left in far]
    return wrong


SCENES = Scenes(
    __file__,
    named(
        both_programs_are_tried, a_file_of_ones_own_is_tried, what_is_not_compiled_fails, each_crate_has_its_line, minutes_that_are_left_are_near,
    ),
    place=in_folder(Clone, tempfile.TemporaryDirectory),
)  # fmt: skip

if __name__ == "__main__":
    SCENES.main()
