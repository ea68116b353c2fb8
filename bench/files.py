#!/usr/bin/env python3
"""How long one run of buildifier over 2,700 files takes by the clock, each of which it changes, the least of several runs, and how often
it flushes a file or a folder to the disk; and how often an edit with --journal does, and one without. A flush waits for the disk, so
the files must be on one: they are in a folder of their own where temporary files are (TMPDIR), or below DISK=..

    bench/files.py [BUILDIFIER BUILDOZER [FILES]]

Build the programs first (make), or name others, and another number of files. BEST_OF sets the runs (3).
"""
import os
import pathlib
import subprocess
import sys
import tempfile
import time

TOP = pathlib.Path(__file__).resolve().parent.parent
sys.path.append(str(TOP / "tests"))
from lib.disks import Recording
from lib.folders import put
from lib.preloaded import preloaded

FILES, FOLDERS = 2700, 100
RUNS = int(os.environ.get("BEST_OF", 3))
TEXT = b'cc_library( name="r",\n  srcs=["r.c","more.c"], hdrs = [ "r.h" ],\n  deps=[":base"])\n' * 10
RULE = b'f( name="x" )\n'
EDITS = {"an edit": ["add deps :a", "//:x"], "one with --journal": ["--journal", "add deps :a", "//:x"]}


def made(above, count):
    """A folder with so many files, which are on the disk, and their names."""
    folder = tempfile.mkdtemp(dir=above)
    names = [f"p{number % FOLDERS}/f{number}" for number in range(count)]
    put(folder, dict.fromkeys(names, TEXT))
    os.sync()
    return folder, names


def seconds(program, above, count):
    folder, names = made(above, count)
    start = time.perf_counter()
    subprocess.run([program, *names], cwd=folder, check=True)
    return time.perf_counter() - start


def flushes(programs, folder, program, words):
    """How often a run flushes a file or a folder."""
    ended, calls = programs.recorded(folder, program, words)
    if ended.status != 0:
        sys.exit(f"bench/files.py: {program} {words} ended with {ended}")
    return sum(call.kind == "flush" for call in calls)


def main():
    found = [pathlib.Path(word).resolve() for word in sys.argv[1:3]] or [TOP / "bin/buildifier", TOP / "bin/buildozer"]
    count = int(sys.argv[3]) if sys.argv[3:] else FILES
    for program in found:
        if not program.exists():
            sys.exit(f"bench/files.py: {program.name} is not there: run make first")
    buildifier, buildozer = found
    with tempfile.TemporaryDirectory(dir=os.environ.get("DISK")) as above:
        each = [seconds(buildifier, above, count) for _ in range(RUNS)]
        print(f"{count:,} files: {min(each):.2f} s of {', '.join(f'{one:.2f}' for one in each)}", flush=True)
        with preloaded("recorded") as (library,):
            if not library:
                return
            programs = Recording({"buildozer": buildozer, "buildifier": buildifier}, library)
            folder, names = made(above, count)
            print(f"flushes of these: {flushes(programs, folder, 'buildifier', names):,}")
            for name, words in EDITS.items():
                put(folder, {"BUILD": RULE})
                print(f"flushes of {name}: {flushes(programs, folder, 'buildozer', words)}")


if __name__ == "__main__":
    main()
