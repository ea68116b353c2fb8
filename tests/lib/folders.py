"""Folders of files, in memory where that can be."""

import contextlib
import os
import pathlib
import tempfile

# a file system in memory, on which a flush to the disk costs nothing; where there is none, the usual place. It may be one from which
# nothing is run
MEMORY = pathlib.Path("/dev/shm")


def new_folder():
    """A folder of its own that goes with its use, in memory where that can be; for files only, since no program may be run there."""
    return tempfile.TemporaryDirectory(dir=MEMORY if os.access(MEMORY, os.W_OK | os.X_OK) else None)


def in_folder(make, new=new_folder):
    """Makes of what is given, and of a folder of its own, what lasts as long as that."""

    @contextlib.contextmanager
    def made(given):
        with new() as folder:
            yield make(given, pathlib.Path(folder))

    return made


def put(folder, files):
    """Writes files by their names below a folder."""
    for name, content in files.items():
        file = pathlib.Path(folder, name)
        file.parent.mkdir(parents=True, exist_ok=True)
        file.write_bytes(content)


def files_in(folder):
    """What is in each file below a folder, by its name."""
    top = pathlib.Path(folder)
    return {str(file.relative_to(top)): file.read_bytes() for file in top.rglob("*") if file.is_file()}
