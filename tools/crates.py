"""The crates of crates.txt, and copies of them in which rt can work while another rt works on the crates themselves.

An rt locks the crate that it works on and all below it, so two of them that have a library in common come one after the other.
In a copy of the crates' sources there is nothing to wait for. What was proved of a library is taken over from where it was
proved: rt accepts it wherever it is, as long as the sources there are the same.
"""
import os
import pathlib
import shutil

TOP = pathlib.Path(__file__).resolve().parent.parent


def libraries_of():
    """For each crate of crates.txt, in its order, the libraries of the repository that it names."""
    rows = [line.partition("#")[0].partition(":") for line in (TOP / "crates.txt").read_text().splitlines()]
    named = {name.split()[0]: uses.split() for name, _, uses in rows if name.strip()}
    return {name: [use for use in uses if use in named] for name, uses in named.items()}


def below(crate, libraries):
    """The libraries that a crate depends on, each after those that it depends on itself."""
    found = {}
    for library in libraries[crate]:
        found.update(dict.fromkeys([*below(library, libraries), library]))
    return list(found)


def copy_sources(to, without=()):
    """Copies all crates to a folder, but for what was proved and files of these names."""
    for name in ("crates.txt", "HANDLES"):
        shutil.copy2(TOP / name, to / name)
    for crate in libraries_of():
        shutil.copytree(TOP / "crates" / crate, to / "crates" / crate, ignore=shutil.ignore_patterns("out", *without))


def link(old, new):
    """A second name for a file, or a copy where the file system has none."""
    try:
        os.link(old, new)
    except OSError:
        shutil.copy2(old, new)


def take_library(crate, old, new):
    """Takes what was proved of a library from one folder with crates/ over to another, where there is something. rt removes it
    there before it writes anew, so it stays as it is here."""
    built, taken = old / "crates" / crate / "out" / "rlib", new / "crates" / crate / "out"
    if not (built / "stamp").exists():
        return
    shutil.rmtree(taken, ignore_errors=True)
    try:
        shutil.copytree(built, taken / "rlib", copy_function=link)
    except OSError:
        # It is being proved anew at this moment; then it is proved in the copy too.
        shutil.rmtree(taken, ignore_errors=True)
