#!/usr/bin/env python3
"""What whole trees take by the clock: 2,702 files that all change, formatted by one process of buildifier and by buildifier-tree, one after the
other on the same disk; and 2,000 packages edited by buildozer-tree with --journal and taken back, with one file changed by hand in between.
With FOLDER=.. the files are those below the folder, each with a statement without the layout at its end, and made ones as far as these
are fewer. The goals: half of the time of one process at most, and each file byte for byte as before, but for the one that was changed.

    bench/trees.py [FOLDER]      with bin/ on the PATH, or build the programs first (make)
"""
import os
import pathlib
import subprocess
import sys
import tempfile
import time

TOP = pathlib.Path(__file__).resolve().parent.parent
FILES, PACKAGES = 2_702, 2_000
# how often both ways are taken; the quickest counts
ROUNDS = 4
ODD = b'\ncc_library( name="odd_%d",\n  srcs=["b.cc","a.cc"], deps=[":x"])\n'
RULES = b"".join(b'cc_library( name="r%d",\n  srcs=["r%d.c"], hdrs = [ "r%d.h" ],\n  deps=[":base"])\n\n' % (i, i, i) for i in range(10))
EDIT = ["set testonly True", "//...:all"]


def environment():
    """The programs of bin/ come first, and then the python3 that runs this, so that no shim before it is measured, too."""
    first = [str(TOP / "bin"), os.path.dirname(os.path.realpath(sys.executable))]
    return {**os.environ, "PATH": os.pathsep.join([*first, os.environ["PATH"]])}


def seconds(words, folder, status=0):
    """How long a command takes in a folder, which must end with this status; and what it writes to standard error."""
    os.sync()
    start = time.perf_counter()
    run = subprocess.run(words, cwd=folder, env=environment(), stdin=subprocess.DEVNULL, stdout=subprocess.DEVNULL, stderr=subprocess.PIPE)
    took = time.perf_counter() - start
    if run.returncode != status:
        sys.exit(f"bench/trees.py: {words[0]} ended with {run.returncode}: {run.stderr.decode(errors='replace')[-500:]}")
    return took, run.stderr.decode(errors="replace").splitlines()


def texts(folder, count):
    """So many texts that formatting changes: those of real files that buildifier takes, and made ones."""
    real = [file.read_bytes() for file in sorted(pathlib.Path(folder).rglob("*")) if file.is_file()] if folder else []
    for number in range(count):
        text = real[number] if number < len(real) else RULES
        odd = text.rstrip(b"\n") + b"\n" + ODD % number
        run = subprocess.run(["buildifier", "--type=build"], env=environment(), input=odd, capture_output=True)
        yield odd if run.returncode == 0 else RULES


def written(folder, all_texts):
    """Writes each text as the file of a package of its own, and gives their names."""
    names = [f"p{number % 100}/q{number}/BUILD" for number in range(len(all_texts))]
    for name, text in zip(names, all_texts):
        (folder / name).parent.mkdir(parents=True, exist_ok=True)
        (folder / name).write_bytes(text)
    return names


def formats(folder, all_texts):
    """The time of one process, and that of buildifier-tree."""
    tree = str(TOP / "contrib" / "tree" / "buildifier-tree")
    best = {}
    for _ in range(ROUNDS):
        for way in ("one process", "buildifier-tree"):
            names = written(folder, all_texts)
            words = ["buildifier", *names] if way == "one process" else [tree]
            took, err = seconds(words, folder)
            best[way] = min(took, best.get(way, took))
            if way == "buildifier-tree" and err[-1] != f"{len(names):,} files reformatted":
                sys.exit(f"bench/trees.py: {err[-1]}")
    return best["one process"], best["buildifier-tree"]


def edits(folder):
    """The times of an edit, its undo, and its redo, once each file but one is what it was before."""
    tree = str(TOP / "contrib" / "tree" / "buildozer-tree")
    names = written(folder, [RULES] * PACKAGES)
    state = ["--state", str(folder / "state"), "--quiet"]
    edit, _ = seconds([tree, *state, "--journal", *EDIT], folder)
    by_hand = folder / names[PACKAGES // 2]
    by_hand.write_bytes(by_hand.read_bytes() + b"# by hand\n")
    undo, err = seconds([tree, *state, "undo"], folder, 2)
    if sum((folder / name).read_bytes() == RULES for name in names) != PACKAGES - 1 or not err[0].startswith(f"{names[PACKAGES // 2]}: left as it is"):
        sys.exit("bench/trees.py: the undo left something else")
    redo, _ = seconds([tree, *state, "redo"], folder, 2)
    return edit, undo, redo


def main():
    where = sys.argv[1] if sys.argv[1:] else None
    with tempfile.TemporaryDirectory(dir=TOP) as folder:
        one, tree = formats(pathlib.Path(folder), list(texts(where, FILES)))
    print(f"{FILES:,} files that all change: one process {one:.1f} s, buildifier-tree {tree:.1f} s, {tree / one:.2f} of it")
    with tempfile.TemporaryDirectory(dir=TOP) as folder:
        edit, undo, redo = edits(pathlib.Path(folder))
    print(f"{PACKAGES:,} packages with --journal: edited {edit:.1f} s, taken back {undo:.1f} s, done again {redo:.1f} s, byte for byte, but for one changed by hand")
    return tree > one / 2


if __name__ == "__main__":
    sys.exit(main())
