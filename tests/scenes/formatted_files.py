#!/usr/bin/env python3
"""Runs the built program buildifier over real files in a folder of its own, and looks at what it leaves.

The engine over files is proved; here it is seen that the files of the system are read and replaced as it is said of them:
whole, under their names, with their permission bits, and only where they differ.

    tests/scenes/formatted_files.py PROGRAM
"""
import os
import tempfile

from lib.folders import in_folder
from lib.lines import INDENTED
from lib.runs import ended
from lib.scenes import Scenes, Wrong, named

ODD = b"a = 1; b = 2; # c\n"
EVEN = b"a = 1\nb = 2  # c\n"
# the same of a .bzl file
ODD_BZL = b"""def f(a,b=1, *c): # doc
  if a: return b
  # none
  return lambda x:x+1
  # end
x=[f(i) for i in c]
"""
EVEN_BZL = b"""def f(a, b = 1, *c):  # doc
    if a:
        return b
    # none
    return lambda x: x + 1
    # end

x = [f(i) for i in c]
"""


class Folder(Wrong):
    """A folder in which the program runs."""

    def __init__(self, programs, path):
        super().__init__()
        (self.program,), self.path = programs, path

    def file(self, name, content, mode=0o644):
        file = self.path / name
        file.parent.mkdir(parents=True, exist_ok=True)
        file.write_bytes(content)
        file.chmod(mode)
        return file

    def leaves(self, words, status, out=b"", err=b""):
        """Whether a run ends so, with this on its outputs."""
        count = len(self.wrong)
        self.expect(f"{words}", ended([self.program, *words], self.path), (status, out, err))
        return len(self.wrong) == count

    def names(self):
        return sorted(str(file.relative_to(self.path)) for file in self.path.rglob("*") if not file.is_dir())


def rewritten(folder):
    """A file that differs is replaced whole, and nothing else is left."""
    file = folder.file("p/BUILD", ODD)
    return folder.leaves(["p/BUILD"], 0) and file.read_bytes() == EVEN and folder.names() == ["p/BUILD"]


def permissions(folder):
    files = [folder.file(f"f{mode:o}", ODD, mode) for mode in (0o600, 0o640, 0o755, 0o664)]
    kept = folder.leaves([file.name for file in files], 0)
    return kept and [file.stat().st_mode & 0o777 for file in files] == [0o600, 0o640, 0o755, 0o664]


def formatted_is_left(folder):
    """A formatted file is not written again."""
    file = folder.file("f", EVEN)
    before = file.stat()
    after = folder.leaves(["f"], 0) and file.stat()
    return after and (after.st_ino, after.st_mtime_ns) == (before.st_ino, before.st_mtime_ns)


def left_file(folder):
    """What an earlier run left under the new name is written over, also where nobody may write it."""
    file = folder.file("f", ODD)
    folder.file("f.bznew", b"left", 0o400)
    return folder.leaves(["f"], 0) and file.read_bytes() == EVEN and folder.names() == ["f"]


def checked(folder):
    file = folder.file("f", ODD)
    return folder.leaves(["--mode=check", "f"], 4, b"f # reformat\n") and file.read_bytes() == ODD


def printed(folder):
    file = folder.file("f", ODD)
    return folder.leaves(["--mode=print_if_changed", "f"], 0, EVEN) and file.read_bytes() == ODD


def all_are_tried(folder):
    """A missing file, a folder and a text that is refused are reported, and the others are formatted."""
    file = folder.file("f", ODD)
    folder.file("d/BUILD", EVEN)
    folder.file("g", b"x(\n")
    err = b"none: cannot open\nd: cannot open\nd: if this is a directory, see buildifier-tree\ng:2:1: Unexpected\n    \n    ^ the end of the file\n    inside the '(' at 1:2\n"
    return folder.leaves(["none", "d", "g", "f"], 3, err=err) and file.read_bytes() == EVEN


def by_its_name(folder):
    """A file whose name ends in .bzl is formatted as one, and then left; every other one is a BUILD file."""
    file = folder.file("p/f.bzl", ODD_BZL)
    if not (folder.leaves(["p/f.bzl"], 0) and file.read_bytes() == EVEN_BZL):
        return False
    before = file.stat()
    folder.file("g.bzl", b"if x:\ny = 1\n")
    folder.file("bzl", EVEN_BZL)
    err = b"g.bzl:2:1: Indented\n    y = 1\n    ^ the word 'y'\n" + INDENTED + b"bzl:1:1: Unexpected\n    def f(a, b = 1, *c):  # doc\n    ^ the word 'def'\n"
    after = folder.leaves(["p/f.bzl", "g.bzl", "bzl"], 1, err=err) and file.stat()
    return after and (after.st_ino, after.st_mtime_ns) == (before.st_ino, before.st_mtime_ns)


def link(folder):
    """A symbolic link becomes a file, since it is replaced by a rename; the file that it names stays."""
    file = folder.file("f", ODD)
    (folder.path / "l").symlink_to("f")
    changed = folder.leaves(["l"], 0)
    return changed and file.read_bytes() == ODD and not (folder.path / "l").is_symlink() and (folder.path / "l").read_bytes() == EVEN


def closed_folder(folder):
    """Where no file may be made, that is reported, and the file stays."""
    file = folder.file("p/f", ODD)
    if os.geteuid() == 0:
        return True  # who may do all is refused nothing
    file.parent.chmod(0o555)
    told = folder.leaves(["p/f"], 3, err=b"p/f: cannot write\n")
    file.parent.chmod(0o755)
    return told and file.read_bytes() == ODD


FORMATTED = named(rewritten, permissions, formatted_is_left, left_file, checked, printed, all_are_tried, by_its_name, link, closed_folder)
SCENES = Scenes(__file__, FORMATTED, place=in_folder(Folder, tempfile.TemporaryDirectory))

if __name__ == "__main__":
    SCENES.main()
