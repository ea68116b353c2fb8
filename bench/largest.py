#!/usr/bin/env python3
"""What texts up to the longest one cost: the processor's time of one run and the most memory that it takes, in bytes for a byte of
the text, for made rules of 144 bytes each, laid out and not, and for one comment, of a sixteenth, a quarter and all of the bytes that
a text may have. The runs are: a format by buildifier, one command, the same with --journal, and an undo in a run after that one.

    bench/largest.py [BUILDOZER BUILDIFIER [BYTES..]]

Build the programs first (make), or name others, and other sizes. The folder is in memory, where that can be.
"""
import os
import pathlib
import sys
import tempfile

from commands import RULE, TOP

LONGEST = 67_108_864
SIZES = [LONGEST // 16, LONGEST // 4, LONGEST]
MEMORY = pathlib.Path("/dev/shm")
CHANGED = 0
# room for what a command adds and the layout changes
ROOM = 4096


def rules(size):
    """Rules as the program lays them out."""
    pieces, room, number = [], size - ROOM, 0
    while room > 0:
        pieces.append(RULE % (number, number, number, number))
        room -= len(pieces[-1]) + 1
        number += 1
    return "\n".join(pieces[:-1]).encode()


def odd_rules(size):
    """The same with another blank in each line."""
    return rules(size - size // 8).replace(b" = ", b"  = ")


def comment(size):
    """A rule after one comment."""
    rule = b'\n\nt(name = "r0")\n'
    return b"#" + b"a" * (size - ROOM - len(rule)) + rule


def run(words, folder, wanted):
    """The processor's seconds and the peak memory in bytes of one run in a folder, which must end with the status."""
    child = os.fork()
    if child == 0:
        os.chdir(folder)
        null = os.open(os.devnull, os.O_RDWR)
        for stream in (0, 1, 2):
            os.dup2(null, stream)
        os.execv(words[0], words)
    _, status, used = os.wait4(child, 0)
    if status != wanted << 8:
        sys.exit(f"bench/largest.py: {' '.join(map(str, words))} ended with the wait status {status}")
    return used.ru_utime + used.ru_stime, 1024 * used.ru_maxrss


def rounds(buildozer, buildifier, text):
    """What is run, and what it took."""
    edit = ["set size small", "//:r0"]
    with tempfile.TemporaryDirectory(dir=MEMORY if os.access(MEMORY, os.W_OK | os.X_OK) else None) as folder:
        file = pathlib.Path(folder, "BUILD")
        for name, words in (
            ("format", [buildifier, "BUILD"]),
            ("command", [buildozer, "--quiet", *edit]),
            ("with --journal", [buildozer, "--quiet", "--journal", *edit]),
            ("undo after it", [buildozer, "--quiet", "--journal", "undo", "//:r0"]),
        ):
            if not name.startswith("undo"):
                file.write_bytes(text)
            yield name, *run(words, folder, CHANGED)


def main():
    buildozer, buildifier = (pathlib.Path(p).resolve() for p in (sys.argv[1:3] or [TOP / "bin/buildozer", TOP / "bin/buildifier"]))
    sizes = [int(word) for word in sys.argv[3:]] or SIZES
    for made in (rules, odd_rules, comment):
        for size in sizes:
            text = made(size)
            for name, seconds, memory in rounds(buildozer, buildifier, text):
                print(f"| {made.__name__.replace('_', ' ')} | {len(text):11,} | {name} | {seconds:7.2f} s | {memory / len(text):6.1f} |", flush=True)


if __name__ == "__main__":
    main()
