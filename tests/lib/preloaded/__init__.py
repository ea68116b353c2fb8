"""Libraries of C that are loaded in front of a program: one lets its calls of the system fail, one records them, one refuses it memory."""

import contextlib
import os
import pathlib
import shutil
import subprocess
import tempfile

SOURCES = pathlib.Path(__file__).resolve().parent
# a program that was built to look after its memory itself takes a library in front of it as well
ASAN = {"ASAN_OPTIONS": "verify_asan_link_order=0"}


@contextlib.contextmanager
def preloaded(*names):
    """The libraries that these sources become; None each where there is no compiler, which is said."""
    if not shutil.which("cc"):
        print(f"tests/lib/preloaded: there is no cc, so what needs {', '.join(names)} was not tried", flush=True)
        yield [None] * len(names)
        return
    with tempfile.TemporaryDirectory() as folder:
        libraries = [f"{folder}/{name}.so" for name in names]
        for name, library in zip(names, libraries):
            subprocess.run(["cc", "-O1", "-shared", "-fPIC", "-o", library, SOURCES / f"{name}.c"], check=True)
        yield libraries


def environment(library, **words):
    """That of a run with a library in front of it, and words for that."""
    return {**os.environ, **ASAN, "LD_PRELOAD": library, **{name: str(word) for name, word in words.items()}}
