#!/usr/bin/env python3
"""What keeping a journal costs: the processor's time of the program, the least of several runs, and the most memory that it takes,
for commands in one run with --journal, each of which is kept as soon as it is done, on made rules that are laid out as the program
lays them out, 144 bytes each; and for a further run that resumes the journal which this one leaves, and lists its texts. Beside each
is the same run without --journal. The program writes into a folder in memory, where that can be, so the disk's time is not in it.
Last come many commands that all set one attribute of one rule: most of what these cost is the SHA-256 of each journal.

    bench/journals.py [PROGRAM [RULES COMMANDS]..]

Build the program first (make), or name another one, and other numbers of rules and of commands on them. BEST_OF sets the runs of
each (3). A memory of less than what this script takes itself, which is in the last line, shows as that.
"""
import os
import pathlib
import sys
import tempfile

from commands import ADD, CHANGED, RULE, RUNS, SAME, TOP, of_nothing, spread

SET = "set size s%d"
# What is done to how many rules, by how many commands.
ROWS = [(ADD, 100, 1000), (ADD, 10_000, 100), (SET, 1, 2_000), (SET, 1, 10_000)]
MEMORY = pathlib.Path("/dev/shm")


def run(program, words, folder, wanted):
    """The processor's seconds and the peak memory in KiB of one run in a folder, which must end with the status."""
    child = os.fork()
    if child == 0:
        os.chdir(folder)
        null = os.open(os.devnull, os.O_RDWR)
        os.dup2(null, 0)
        os.dup2(null, 1)
        os.execv(program, [program, "--quiet", *words])
    _, status, used = os.wait4(child, 0)
    if status != wanted << 8:
        sys.exit(f"bench/journals.py: {program} {' '.join(words)} ended with the wait status {status}")
    return used.ru_utime + used.ru_stime, used.ru_maxrss


def folder_of(command, rules, commands, above):
    """A folder with the file and the lines."""
    folder = tempfile.mkdtemp(dir=above)
    lines = [line.replace("|-:", "|//:") + "\n" for line in spread(command, commands, rules)]
    pathlib.Path(folder, "BUILD").write_text("\n".join(RULE % (i, i, i, i) for i in range(rules)))
    pathlib.Path(folder, "lines").write_text("".join(lines))
    return folder


def once(program, command, rules, commands, above):
    """The runs of one round, in folders of their own, and how many bytes the journal has."""
    plain, kept = (folder_of(command, rules, commands, above) for _ in range(2))
    found = [
        run(program, ["-f", "lines"], plain, CHANGED),
        run(program, ["--journal", "-f", "lines"], kept, CHANGED),
        run(program, ["journal", "//:__pkg__"], kept, SAME),
        run(program, ["--journal", "journal", "//:__pkg__"], kept, SAME),
    ]
    return found, pathlib.Path(kept, "BUILD.journal").stat().st_size


def cell(runs):
    """The least seconds and the most memory of the runs."""
    return f"{min(seconds for seconds, _ in runs):9.3f} s, {max(memory for _, memory in runs) / 1024:6.1f} MB"


def show(program, command, rules, commands):
    """Prints a line for the commands, and one for the run that resumes their journal."""
    rounds = []
    for _ in range(RUNS):
        with tempfile.TemporaryDirectory(dir=MEMORY if os.access(MEMORY, os.W_OK | os.X_OK) else None) as above:
            rounds.append(once(program, command, rules, commands, above))
    plain, kept, unread, resumed = map(cell, zip(*(found for found, _ in rounds)))
    size = rounds[0][1]
    print(f"| {commands:6,} `{command.split()[0]}` | {rules:6,} | {size:11,} | {kept} | {plain} |", flush=True)
    print(f"| resuming them | {rules:6,} | {size:11,} | {resumed} | {unread} |", flush=True)


def main():
    program = pathlib.Path(sys.argv[1] if sys.argv[1:] else TOP / "bin/buildozer").resolve()
    numbers = [int(word) for word in sys.argv[2:]]
    if not program.exists():
        sys.exit(f"bench/journals.py: {program.name} is not there: run make first")
    if len(numbers) % 2:
        sys.exit("bench/journals.py: rules without commands")
    print(f"| {'run':12} | {'rules':>6} | {'journal':>11} | {'with --journal':>22} | {'without':>22} |\n|---|---|---|---|---|")
    named = [(ADD, rules, commands) for rules, commands in zip(numbers[::2], numbers[1::2])]
    for command, rules, commands in named or ROWS:
        show(str(program), command, rules, commands)
    print(f"a program that does nothing shows {of_nothing() / 1024:.1f} MB")


if __name__ == "__main__":
    main()
