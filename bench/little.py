#!/usr/bin/env python3
"""What little input takes that could take far more: texts, commands and journals, each in a run that is held to the memory that it is to take
and 64 MB beside it (as by `ulimit -v`). A row has the input, what it took when it was found, what it is to take, and what it takes now: the
processor's seconds and the most memory of the run; then whether it keeps to that. Of what grew by the square there are two runs, of which
the second one has twice the commands. A row that does not keep to it is printed so, and is no failure.

    bench/little.py [--free] [--long] [WORD..]

Build the programs first (make). With WORDs only rows are run of which the input has one of them. With --free a run that its memory stopped runs
once more, held to what the machine has to spare, so that what it takes is seen. With --long come those rows that are to stay as they are.
"""
import collections
import os
import pathlib
import resource
import sys
import tempfile

from commands import CHANGED, SAME, TOP, of_nothing
from largest import LONGEST, MEMORY

MB, REFUSED, PROGRAMS = 1_000_000, 2, [TOP / "bin/buildozer", TOP / "bin/buildifier"]
# what a run may take beside what its row says, and what is left of the machine's memory to others
BESIDE, SPARED = 64 * MB, 3_000 * MB
# what an accepted run may take for each byte of its texts, and how much longer twice the commands may take
EACH, TWICE = 110, 2.6

# What is run: the text of BUILD, the commands with their targets, and the options before them.
Made = collections.namedtuple("Made", "text lines options", defaults=[[], []])
# A row of memory: the bytes that it may take, what is run, the status, and what is on standard error.
Held = collections.namedtuple("Held", "input was bytes made status says program", defaults=["", PROGRAMS[0]])
# A row of time: what is run for a number of commands, how many these are, and the seconds that they may take, where that is
# not 2.6 times those of half of them.
Timed = collections.namedtuple("Timed", "input was made most seconds", defaults=[None])


def one(value, attribute="srcs"):
    return f'f(name = "a", {attribute} = {value})\n'


def rules(count):
    return "".join(f'f(name = "r{i}", srcs = ["x"])\n' for i in range(count))


def each(command, count=1, target="-:a"):
    """The command so many times; `%d` is its number."""
    return [f"{command.replace('%d', str(i))}|{target}" for i in range(count)]


def on_all(*commands):
    return [f"{command}|-:all" for command in commands]


def string(letter, count):
    return '"' + letter * count + '"'


NEST = "[" * 400 + "]" * 400
JOINED = ".".join("a" * 497)


def before(count):
    """So many short rules, and one with a value that is 400 deep."""
    return "f()\n" * count + f'f(name = "s", y = {NEST})\n'


def copies(count):
    """How many bytes these rules have with that value."""
    return count * len(f"f(y = {NEST})\n\n")


def of_many_targets(count):
    """One command of 60,000 bytes, of which each rule has the first word."""
    words = "".join(f" w{i:05}" for i in range(60_000 // 7))
    return Made(rules(count), ["|".join([f"remove srcs x{words}", *(f"//:r{i}" for i in range(count))])], ["--journal"])


HELD = [
    Held("33 KB: 1,000 lines `substitute srcs \\pL{97}zN b`", "2.5 GB", 100 * MB, Made(one('["x"]'), each("substitute srcs \\pL{97}z%d b", 1000)), SAME),
    Held("120 KB: `substitute srcs a+ $0$0..`, one string", "3.4 GB", 100 * MB,
         Made(one(f"[{string('a', 60_000)}]"), each("substitute srcs a+ " + "$0" * 30_000)), REFUSED, "TooLarge"),
    Held("80 KB: `substitute x o WW..`, one string", "2.4 GB", 100 * MB,
         Made(one(string("o", 20_000), "x"), each("substitute x o " + "W" * 60_001)), REFUSED, "TooLarge"),
    Held("1 MB: `substitute x o WW..`, a million `o`", "3.9 GB", 100 * MB,
         Made(one(string("o", 1_000_000), "x"), each("substitute x o " + "W" * 2_000)), REFUSED, "TooLarge"),
    Held("290 KB: `copy y s`, 72,289 rules, `y` 400 deep", "3.8 GB", EACH * copies(72_289), Made(before(72_289), on_all("copy y s")), CHANGED),
    Held("21 KB: 25 times `copy y s`, `remove y`, 5,000 rules", "> 6 GB", EACH * 25 * copies(5_000),
         Made(before(5_000), on_all("copy y s", "remove y") * 25), CHANGED),
    Held("266 KB: `set kind`, 497 joined names, 66,247 rules", "11.7 GB", 7_000 * MB, Made("f()\n" * 66_247, on_all(f"set kind {JOINED}")), CHANGED),
    # what it may take is what it prints: 40 bytes for each rule each time
    Held("80 KB: `print rule rule ..`, 1,000 rules", "0.9 GB", 10_000 * 1_000 * 40, Made(rules(1000), on_all("print" + " rule" * 10_000)), SAME),
    Held("45 MB: lines `a`, too long when formatted", "9.2 GB", 5 * 2 * (LONGEST // 3 + 1), Made("a\n" * (LONGEST // 3 + 1)), 3, "TooLarge", PROGRAMS[1]),
    Held("a sparse BUILD.journal of 3 GB", "3.0 GB", 64_000, Made(one('["x"]'), each("add srcs y", target="//:a"), ["--journal"]), REFUSED, "Damaged"),
]  # fmt: skip

TIMED = [
    Timed("`add` to one list", "29 s", lambda count: Made(one("[]"), each("add srcs v%d", count)), 15_000, 29 / 4),
    Timed("`set` on `:all`", "26 s", lambda count: Made(one("[]"), each("set a%d v", count, "-:all")), 18_000, 26 / 4),
    Timed("`new .. after`", "7.8 s", lambda count: Made(one("[]"), each("new t n%d after a", count, "-:__pkg__")), 4_000),
    Timed("`dict_set`", "26 s for 10,000", lambda count: Made(one("{}"), each("dict_set srcs k%d:v", count)), 4_000),
    Timed("pairs of `undo` and `redo`, `--journal`", "26 s for 6,000",
          lambda count: Made(one("[]"), each("add srcs v", target="//:a") + (each("undo", target="//:a") + each("redo", target="//:a")) * count, ["--journal"]), 4_000),
    Timed("targets of a 60 KB command, `--journal`", "26 s for 1,000", of_many_targets, 1_000),
]  # fmt: skip

STAYING = [
    Timed("`set` with `--journal`: its hashes", "28 s", lambda count: Made(one("[]"), each("set size s%d", count, "//:a"), ["--journal"]), 10_000, 28),
    Timed("`(a{1,500}){1,20}b\\|a`, bytes of one string", "> 60 s",
          lambda count: Made(one(f"[{string('a', count)}]"), each("substitute srcs (a{1,500}){1,20}b|a z")), 300_000, 120),
]  # fmt: skip


def to_spare():
    """What the machine has of memory, but for what is left to others."""
    found = dict(line.split()[:2] for line in pathlib.Path("/proc/meminfo").read_text().splitlines())
    return 1024 * int(found["MemAvailable:"]) - SPARED


def run(program, made, most, folder):
    """The status, the processor's seconds, the peak of memory in bytes and standard error of a run that is held to so much."""
    text, lines, said = (pathlib.Path(folder, name) for name in ("BUILD", "lines", "said"))
    text.write_text(made.text)
    lines.write_text("".join(line + "\n" for line in made.lines))
    child = os.fork()
    if child == 0:
        os.chdir(folder)
        for stream, file, how in ((0, text, os.O_RDONLY), (1, os.devnull, os.O_WRONLY), (2, said, os.O_WRONLY | os.O_CREAT | os.O_TRUNC)):
            os.dup2(os.open(file, how), stream)
        resource.setrlimit(resource.RLIMIT_AS, (most, most))
        os.execv(program, [program, *made.options, *(["-f", "lines"] if made.lines else [])])
    _, status, used = os.wait4(child, 0)
    return os.waitstatus_to_exitcode(status), used.ru_utime + used.ru_stime, 1024 * used.ru_maxrss, said.read_text(errors="replace")


def in_folder(program, made, most, sparse=False):
    with tempfile.TemporaryDirectory(dir=MEMORY if os.access(MEMORY, os.W_OK | os.X_OK) else None) as folder:
        if sparse:
            pathlib.Path(folder, "BUILD.journal").touch()
            os.truncate(pathlib.Path(folder, "BUILD.journal"), 3 << 30)
        return run(program, made, most, folder)


def held(row, is_free):
    """What a run of a row takes, and whether that is what it may."""
    most, sparse = row.bytes + BESIDE, "journal" in row.input
    if to_spare() < most:
        return "not run: too little memory is free", ""
    status, seconds, memory, said = in_folder(row.program, row.made, most, sparse)
    keeps = status == row.status and row.says in said
    cell = f"{seconds:.2f} s, {memory / MB:,.0f} MB" if keeps else f"more, or another answer: status {status}, {said[-60:].strip()!r}"
    if not keeps and is_free:
        status, seconds, memory, said = in_folder(row.program, row.made, max(to_spare(), most), sparse)
        cell = f"{seconds:.2f} s, {memory / MB:,.0f} MB, status {status}"
    return cell, "yes" if keeps else "no"


def timed(row):
    """The same of a row of time."""
    runs = [in_folder(PROGRAMS[0], row.made(count), to_spare()) for count in ([row.most] if row.seconds else [row.most // 2, row.most])]
    if any(status != CHANGED for status, *_ in runs):
        return f"status {runs[-1][0]}: {runs[-1][3][-60:].strip()!r}", "no"
    half, whole = runs[0][1], runs[-1][1]
    keeps = whole <= row.seconds if row.seconds else whole <= TWICE * half
    return f"{whole:.2f} s, {runs[-1][2] / MB:,.0f} MB" + ("" if row.seconds else f"; half: {half:.2f} s"), "yes" if keeps else "no"


def main():
    words = [word for word in sys.argv[1:] if word not in ("--free", "--long")]
    missing = [program for program in PROGRAMS if not program.exists()]
    if missing:
        sys.exit(f"bench/little.py: {missing[0]} is not there: run make first")
    print("| input | was | is to be | now | keeps to it |\n|---|---|---|---|---|")
    for row in HELD + TIMED + STAYING * ("--long" in sys.argv):
        if words and not any(word in row.input for word in words):
            continue
        if isinstance(row, Held):
            wanted, found = f"{row.bytes / MB:,.1f} MB", held(row, "--free" in sys.argv)
        else:
            wanted, found = f"{row.seconds:.1f} s" if row.seconds else f"{TWICE} times half", timed(row)
        name = row.input if isinstance(row, Held) else f"{row.most:,} {row.input}"
        print(f"| {name} | {row.was} | {wanted} | {found[0]} | {found[1]} |", flush=True)
    print(f"a program that does nothing shows {of_nothing() / 1024:.1f} MB")


if __name__ == "__main__":
    main()
