#!/usr/bin/env python3
"""How long one run over many packages takes, and how much memory it takes at most: for 5,000 packages, each with a BUILD
file of 10 rules, and a file of 20,000 lines that goes round all of them four times, so that each file stays open up to the
end; and for half and a quarter of both. Each is run with --stdout, which leaves the files, and then without it. The second
run has each file flushed to the disk, so its time is also the disk's: the processor's time is printed too. The goal: twice of
both take at most 2.2 times the processor's time and the memory. Build the program first (make), or name another one, and
another number of packages, of which a quarter is one at least:

    bench/packages.py [PROGRAM [PACKAGES]]
"""
import os
import pathlib
import sys
import tempfile
import time

TOP = pathlib.Path(__file__).resolve().parent.parent
PACKAGES = 5000
RULES = 10

# A rule without the layout, about a hundred bytes.
RULE = 'cc_library( name="r%d",\n  srcs=["r%d.c","r%d_more.c"], hdrs = [ "r%d.h" ],\n  deps=[":base"])\n\n'

# What the lines request, one command in each round; the package has this number.
ROUNDS = [
    "add deps //lib:a //lib:b|//p%d:r3",
    "set testonly True|//p%d:r7",
    "new cc_test added|//p%d:__pkg__",
    "comment srcs all\\ of\\ them|//p%d:r5",
]


def make(folder, packages):
    """Makes the packages, and the file of lines."""
    text = "".join(RULE % (i, i, i, i) for i in range(RULES))
    for i in range(packages):
        package = folder / f"p{i}"
        package.mkdir()
        (package / "BUILD").write_text(text)
    lines = [command % i + "\n" for command in ROUNDS for i in range(packages)]
    (folder / "lines").write_text("".join(lines))
    return len(lines), packages * len(text)


def run(words, folder):
    """Seconds, those of the processor, and the peak memory in KiB, of one run in a folder, which must change its files."""
    start = time.perf_counter()
    child = os.fork()
    if child == 0:
        os.chdir(folder)
        null = os.open(os.devnull, os.O_RDWR)
        os.dup2(null, 0)
        os.dup2(null, 1)
        os.execv(words[0], words)
    _, status, used = os.wait4(child, 0)
    seconds = time.perf_counter() - start
    if status != 0:
        sys.exit(f"bench/packages.py: {' '.join(words)} ended with the wait status {status}")
    return seconds, used.ru_utime + used.ru_stime, used.ru_maxrss


def measured(program, packages):
    """The processor's seconds of both runs, and the peak memory in KiB of the second one."""
    with tempfile.TemporaryDirectory() as path:
        lines, size = make(pathlib.Path(path), packages)
        shown = run([program, "--stdout", "-f", "lines"], path)
        written = run([program, "--quiet", "-f", "lines"], path)
    print(f"{packages} packages, {size} bytes, {lines} lines:")
    for name, (seconds, worked, memory) in ("--stdout", shown), ("written", written):
        peak = f"{memory} KiB, {memory * 1024 / size:.1f} bytes a byte of text"
        print(f"  {name:8} {seconds:.2f} s, of the processor {worked:.2f} s; peak {peak}", flush=True)
    return shown[1], written[1], written[2]


def main():
    program = pathlib.Path(sys.argv[1] if sys.argv[1:] else TOP / "bin/buildozer").resolve()
    if not program.exists():
        sys.exit(f"bench/packages.py: {program.name} is not there: run make first")
    packages = int(sys.argv[2]) if sys.argv[2:] else PACKAGES
    found = [measured(str(program), packages // part) for part in (1, 2, 4)]
    for name, more, less in ("whole to half", *found[:2]), ("half to quarter", *found[1:]):
        shown, written, memory = (a / b for a, b in zip(more, less))
        print(f"{name}: {shown:.2f} and {written:.2f} times the processor's time, {memory:.2f} times the memory (goal: at most 2.2)")


if __name__ == "__main__":
    main()
