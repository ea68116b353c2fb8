#!/usr/bin/env python3
"""How much longer twice the text takes to parse, for texts of thirty shapes: bench/shapes.py [cases].

A text of a shape is some two million bytes, and twice as many; the time is the processor's for `cases parse`, less that
for `cases copy`, each the least of several runs of the process. The goal: at most 2.1 times the time for twice the text,
on an idle machine. Build the program first (make bin/cases).
"""
import os
import pathlib
import sys
import tempfile

TOP = pathlib.Path(__file__).resolve().parent.parent
SIZE = 2_000_000
ROUNDS = 9
DEEP = 490

# a shape is what is in front, what is repeated, and what is after
SHAPES = {
    "one long name": ("", "a", " = 1\n"),
    "one long string": ('x = "', "a", '"\n'),
    "one long comment": ("# ", "a", "\n"),
    "one long string over lines": ('x = """', "a b\n", '"""\n'),
    "one long list of numbers": ("x = [", "1, ", "]\n"),
    "one long list of strings": ("x = [\n", '    "//a/b:c",\n', "]\n"),
    "one long list with comments": ("x = [\n", '    "a",  # why\n', "]\n"),
    "one long dict": ("x = {\n", '    "a": [1, b],\n', "}\n"),
    "one long call": ("f(", "a, ", ")\n"),
    "one long tuple": ("x = 1", ", 1", "\n"),
    "one long sum": ("x = 1", " + 1", "\n"),
    "one line of statements": ("x = 1", "; y = 2", "\n"),
    "one line over lines": ("x = [", "1, \\\n", "]\n"),
    "empty lines": ("", "\n", "x = 1\n"),
    "blank lines": ("", "    \t \n", "x = 1\n"),
    "comment lines": ("", "# a comment\n", ""),
    "short statements": ("", "x=1\n", ""),
    "rules": ("", 'cc_library(\n    name = "r",\n    srcs = [\n        "r.c",\n    ],\n)\n\n', ""),
    "loads": ("", 'load("//a:b.bzl", "c", d = "e")\n', ""),
    "comprehensions": ("", "x = [f(i) for i in g if i]\n", ""),
    "comparisons": ("", "x = a == b\n", ""),
    "slices": ("", "x = a[1:2:3]\n", ""),
    "signs to the limit": ("", "x = " + "-" * DEEP + "1\n", ""),
    "not to the limit": ("", "x = " + "not " * DEEP + "a\n", ""),
    "lists to the limit": ("", "[" * DEEP + "]" * DEEP + "\n", ""),
    "tuples to the limit": ("", "(" * DEEP + ")" * DEEP + "\n", ""),
    "calls to the limit": ("", "f(" * DEEP + ")" * DEEP + "\n", ""),
    "dots to the limit": ("", "x = a" + ".b" * DEEP + "\n", ""),
    "indexes to the limit": ("", "x = a" + "[0]" * DEEP + "\n", ""),
    "conditionals to the limit": ("", "x = " + "a if b else " * DEEP + "c\n", ""),
}


def text_of(shape, size):
    front, unit, back = shape
    return front + unit * ((size - len(front) - len(back)) // len(unit)) + back


def least(program, work, path):
    """The least seconds of the processor that a run takes, or None where the text is not accepted."""
    best = None
    for _ in range(ROUNDS):
        child = os.fork()
        if child == 0:
            os.dup2(os.open(path, os.O_RDONLY), 0)
            os.dup2(os.open(os.devnull, os.O_WRONLY), 1)
            os.execv(program, [program, work])
        _, status, used = os.wait4(child, 0)
        if status:
            return None
        seconds = used.ru_utime + used.ru_stime
        best = seconds if best is None else min(best, seconds)
    return best


def main():
    program = sys.argv[1] if sys.argv[1:] else str(TOP / "bin/cases")
    if not os.path.exists(program):
        sys.exit(f"bench/shapes.py: {pathlib.Path(program).name} is not there: run make bin/cases first")
    worst = 0
    with tempfile.TemporaryDirectory() as scratch:
        path = pathlib.Path(scratch, "text")
        for name, shape in SHAPES.items():
            times = []
            for size in (SIZE, 2 * SIZE):
                path.write_text(text_of(shape, size))
                parsed, copied = least(program, "parse", path), least(program, "copy", path)
                times.append(parsed - copied if parsed and copied else None)
            if None in times:
                sys.exit(f"bench/shapes.py: the text of {name} is not accepted")
            worst = max(worst, times[1] / times[0])
            print(f"{name}: {SIZE / times[0] / 1e6:.1f} MB/s, twice the text {times[1] / times[0]:.2f} times the time", flush=True)
    print(f"{len(SHAPES)} shapes: at most {worst:.2f} times the time for twice the text (goal: 2.1)")


if __name__ == "__main__":
    main()
