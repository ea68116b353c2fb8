"""Folders in which buildozer runs, and what it leaves there."""

import os

from .folders import in_folder, put
from .runs import as_nobody, ended
from .scenes import Wrong


def bytes_of(file):
    """The bytes of a file, also of one that nobody may read."""
    mode = file.stat().st_mode & 0o7777
    if not os.access(file, os.R_OK):
        file.chmod(0o600)
    content = file.read_bytes()
    file.chmod(mode)
    return content


class Workspace(Wrong):
    """A folder in which the program runs."""

    def __init__(self, program, path, files):
        super().__init__()
        self.program, self.path = program, path
        put(path, files)

    def left(self):
        """What is in each file, by its name."""
        files = [file for file in self.path.rglob("*") if not file.is_dir()]
        return {str(file.relative_to(self.path)): bytes_of(file) for file in files}

    def ended(self, words, text=b""):
        """The status, standard output and standard error of a run."""
        return ended([self.program, *words], self.path, input=text, **as_nobody(self.path))

    def leaves(self, words, status, out=b"", err=b"", after={}, text=b"", lines=b"", begins=False):
        """Whether a run, which may find a file of lines, ends so, with this on its outputs and these files after it; all
        others stay. Of standard error the beginning alone may be compared."""
        if lines:
            (self.path / "lines").write_bytes(lines)
        files = {**self.left(), **after}
        status_left, out_left, err_left = self.ended(words, text)
        err_left = err_left[: len(err)] if begins else err_left
        pairs = {"status": (status_left, status), "output": (out_left, out), "errors": (err_left, err), "files": (self.left(), files)}
        wrong = [f"{words}: {name}: {is_!r}, and not {want!r}" for name, (is_, want) in pairs.items() if is_ != want]
        self.wrong += wrong
        return not wrong


def in_workspace(files):
    """Makes of the programs a workspace with these files, in a folder of its own."""
    return in_folder(lambda programs, folder: Workspace(programs["buildozer"], folder, files))
