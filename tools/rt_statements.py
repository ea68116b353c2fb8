#!/usr/bin/env python3
"""rt, but a library that it builds holds its statements alone.

    tools/rt_statements.py WORD..    what rt WORD.. does

A library with its proofs takes each crate above up to two minutes to read, and its statements are all that those need; the gate
gives them no more either. But then nothing is kept of what was proved of each function, for a next check of the same crate. So it is
for tools/build.py alone. Where the program of rt is not built so that this can be set, it is run as it is.
"""
import importlib.machinery
import importlib.util
import os
import shutil
import sys


def loaded():
    """The program of rt as a module; none where it is not such a program."""
    try:
        loader = importlib.machinery.SourceFileLoader("rt_of_the_kit", os.path.realpath(shutil.which("rt")))
        program = importlib.util.module_from_spec(importlib.util.spec_from_loader(loader.name, loader))
        sys.modules[loader.name] = program
        loader.exec_module(program)
        return program if callable(program.main) and callable(program.rtlib.Crate.words) else None
    except (AttributeError, OSError, SyntaxError, TypeError, ValueError):
        return None


def give_statements(rtlib):
    """Has each library that is built hold its statements alone, and nothing be kept beside it."""
    words = rtlib.Crate.words
    rtlib.Crate.words = lambda crate, flags, **how: [*words(crate, flags, **how), *["--statements"] * crate.makes_rlib()]
    rtlib.libraries_keep = lambda: False


def main(words):
    # the kit's folder is not written to
    sys.dont_write_bytecode = True
    program = loaded()
    if not program:
        os.execvp("rt", ["rt", *words])
    give_statements(program.rtlib)
    return program.main(words)


if __name__ == "__main__":
    sys.exit(main(sys.argv[1:]))
