#!/usr/bin/env python3
"""What many commands in one run cost: the processor's time of the program, the least of several runs, and the most memory that
it takes, for commands on made rules that are laid out as the program lays them out, 144 bytes each. The text is standard input,
and the commands are in a file of lines, each with its target. Each row has a run of one command beside it, so that what each
further one costs can be seen.

    bench/commands.py [--long] [--journal] [PROGRAM..]

Build the program first (make), or name others, which are run in turn, row by row, so that what else the machine does meets each
of them. With --long come the rows that take more than a minute too. BEST_OF sets the runs of each (3). A memory of less than what
this script takes itself, which is in the last line, shows as that.
"""
import os
import pathlib
import shutil
import sys
import tempfile

TOP = pathlib.Path(__file__).resolve().parent.parent
RUNS = int(os.environ.get("BEST_OF", "3"))
JOURNAL = "--journal" in sys.argv
# rules whose text has 4.2 MB
MOST = 28_600

RULE = """\
cc_library(
    name = "r%d",
    srcs = [
        "r%d.c",
        "r%d_more.c",
    ],
    hdrs = ["r%d.h"],
    deps = [":base"],
)
"""

# The statuses of a run: the text at the end is another one than was read, or it is the same.
CHANGED, SAME = 0, 3


def spread(command, count, rules):
    """So many commands, each on another rule, or where there are fewer rules on all in turn; `%d` is the command's number."""
    step = max(rules // count, 1)
    return [f"{command.replace('%d', str(i))}|-:r{i * step % rules}" for i in range(count)]


def each(command, count):
    """So many commands, each on all rules."""
    return [f"{command.replace('%d', str(i))}|-:all" for i in range(count)]


def of_file(command, count):
    return [f"{command.replace('%d', str(i))}|-:__pkg__" for i in range(count)]


ADD = "add deps :v%d"
LOAD = "new_load //:d%d.bzl s%d"
REPLACE_LOAD = "replace_load //:d%d.bzl s%d"
DELETE = "delete"
COMMENT = "comment deps why\\ not"
RENAME = "rename deps data"
PRINT = "print name deps"
REPLACE = "replace deps :base :other"
# how many lines a rule takes, with the blank one after it
TALL = RULE.count("\n") + 1
THOUSAND = spread(ADD, 1000, 100)
UNDOS = ["undo|-:all"] * 1000
REDOS = ["redo|-:all"] * 1000


def by_line(command, count):
    """So many commands, each on the rule of another line."""
    return [f"{command}|-:%{1 + i * TALL}" for i in range(count)]


# A row: what it does, how many rules there are, the lines, and the status.
ROWS = [
    *((f"{count} `add`, each to another rule", 10_000, spread(ADD, count, 10_000), CHANGED) for count in (1, 10)),
    *((f"{count} `add`, each to all rules", 10_000, each(ADD, count), CHANGED) for count in (1, 10)),
    ("1 `new_load`", 10_000, of_file(LOAD, 1), CHANGED),
    *((f"1 `{command.split()[0]}`", 10_000, spread(command, 1, 10_000), CHANGED) for command in (DELETE, COMMENT, RENAME)),
    *((f"{count} `print`", 10_000, spread(PRINT, count, 10_000), SAME) for count in (1, 10)),
    ("1 `add`", 100, spread(ADD, 1, 100), CHANGED),
    ("1,000 `add`", 100, THOUSAND, CHANGED),
    ("1,000 `add`, 1,000 `undo`", 100, THOUSAND + UNDOS, SAME),
    ("1,000 `add`, 1,000 `undo`, 1,000 `redo`", 100, THOUSAND + UNDOS + REDOS, CHANGED),
    ("1 `delete`", MOST, spread(DELETE, 1, MOST), CHANGED),
]

LONG = [
    ("100 `add`, each to another rule", 10_000, spread(ADD, 100, 10_000), CHANGED),
    ("100 `new_load`", 10_000, of_file(LOAD, 100), CHANGED),
    *((f"100 `{command.split()[0]}`", 10_000, spread(command, 100, 10_000), CHANGED) for command in (DELETE, COMMENT, RENAME)),
    ("1,000 `print`", 10_000, spread(PRINT, 1000, 10_000), SAME),
    ("1,000 `add`, each to another rule", 10_000, spread(ADD, 1000, 10_000), CHANGED),
    # twice the commands: what they cost beside the half
    *((f"{count:,} `add` to one list", 1, spread(ADD, count, 1), CHANGED) for count in (1000, 2000)),
    *((f"{count:,} `new_load` of other files", 1, of_file(LOAD, count), CHANGED) for count in (1000, 2000)),
    *((f"{count:,} `replace_load`, each of another file", 1, of_file(REPLACE_LOAD, count), CHANGED) for count in (1000, 2000)),
    *((f"{count:,} `print` by `%LINE`", count, by_line(PRINT, count), SAME) for count in (2000, 4000)),
    *((f"{count:,} `replace` by `%LINE`", count, by_line(REPLACE, count), CHANGED) for count in (1000, 2000)),
    *((f"{count:,} `print`", 400, spread(PRINT, count, 400), SAME) for count in (2000, 4000)),
]


def on_input(program, lines, text):
    """Runs the program in the place of this process, over the text as standard input."""
    os.dup2(os.open(text, os.O_RDONLY), 0)
    os.execv(program, [program, "-f", lines])


def on_package(program, lines, text):
    """Runs the program in the place of this process, over the text as the file of a package that has no journal yet."""
    package = pathlib.Path(tempfile.mkdtemp(dir=text.parent), "pkg")
    package.mkdir()
    shutil.copy(text, package / "BUILD")
    os.chdir(package.parent)
    os.dup2(os.open(os.devnull, os.O_WRONLY), 2)
    os.execv(program, [program, "--journal", "-f", lines])


def run(program, lines, text, wanted):
    """The processor's seconds and the peak memory in KiB of one run, which must end with the status."""
    child = os.fork()
    if child == 0:
        os.dup2(os.open(os.devnull, os.O_WRONLY), 1)
        (on_package if JOURNAL else on_input)(program, lines, text)
    _, status, used = os.wait4(child, 0)
    if status != wanted << 8:
        sys.exit(f"bench/commands.py: {program} ended with the wait status {status}")
    return used.ru_utime + used.ru_stime, used.ru_maxrss


def measured(programs, folder, rules, lines, wanted):
    """For each program the least seconds and the most memory of its runs, and how many bytes the text has."""
    text = "\n".join(RULE % (i, i, i, i) for i in range(rules))
    files = pathlib.Path(folder, "lines"), pathlib.Path(folder, "text")
    lines = [line.replace("|-:", "|//pkg:") for line in lines] if JOURNAL else lines
    for file, content in zip(files, ("".join(line + "\n" for line in lines), text)):
        file.write_text(content)
    runs = [[run(program, *files, wanted) for program in programs] for _ in range(RUNS)]
    return [(min(seconds for seconds, _ in of_one), max(memory for _, memory in of_one)) for of_one in zip(*runs)], len(text)


def of_nothing():
    """The memory in KiB that a program which does nothing shows."""
    child = os.fork()
    if child == 0:
        os.execvp("true", ["true"])
    return os.wait4(child, 0)[2].ru_maxrss


def main():
    words = [word for word in sys.argv[1:] if word not in ("--long", "--journal")]
    programs = [pathlib.Path(word).resolve() for word in words] or [TOP / "bin/buildozer"]
    missing = [program for program in programs if not program.exists()]
    if missing:
        sys.exit(f"bench/commands.py: {missing[0]} is not there: run make first")
    print(f"| {'commands':40} | {'rules':>6} | {'bytes':>9} |" + "".join(f" {program.name:>22} |" for program in programs))
    print("|---|---|---|" + "---|" * len(programs))
    with tempfile.TemporaryDirectory() as folder:
        for name, rules, lines, wanted in ROWS + LONG * ("--long" in sys.argv):
            found, size = measured(programs, folder, rules, lines, wanted)
            cells = "".join(f" {seconds:9.3f} s, {memory / 1024:6.1f} MB |" for seconds, memory in found)
            print(f"| {name:40} | {rules:6,} | {size:9,} |{cells}", flush=True)
    print(f"a program that does nothing shows {of_nothing() / 1024:.1f} MB")


if __name__ == "__main__":
    main()
