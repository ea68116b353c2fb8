"""Finds the files below folders.

In a repository of git these are the files that git knows, and new ones that it doesn't ignore; elsewhere all. Links to folders are not
followed, files that are links are kept apart, and what a workspace leaves aside for Bazel is left out. What is named itself is
taken, whoever ignores it.
"""
import os
import stat

from . import git
from .ignored import Ignored, Unread
from .names import ROOT_NAMES, root_above

FOLDER, UNNOTED = os.O_RDONLY | os.O_DIRECTORY | os.O_CLOEXEC, getattr(os, "O_NOATIME", 0)
UNOPENED, FOREIGN = "cannot open", "{}: passed over as the root of a workspace, since it is another user's"


class Found:
    """What is below a folder: files, files that are links, what can't be read, with why, repositories; and roots of other users' above it."""

    def __init__(self):
        self.files, self.links, self.closed, self.inner, self.foreign = {}, [], {}, set(), []

    def add(self, folder, name):
        """Takes a file in, with what the system says of it; one that is gone, or that is no file, is passed over."""
        try:
            row = os.lstat(os.path.join(folder, name))
        except OSError as error:
            self.closed.update({} if isinstance(error, FileNotFoundError) else {name: UNOPENED})
            return
        if stat.S_ISREG(row.st_mode):
            self.files[name] = row
        elif stat.S_ISLNK(row.st_mode):
            self.links.append(name)


def below(folder, wanted):
    """What is below a folder, of files whose last name is wanted (a function of it); a repository of which git refuses to speak is closed."""
    found = Found()
    pending = [""]
    while pending:
        front = pending.pop()
        try:
            names, inner = walked(os.path.join(folder, front), found, front, wanted)
        except git.GitError as fault:
            if not front:
                raise
            found.closed[front] = f"git: {fault}"
            continue
        for name in names:
            found.add(folder, os.path.join(front, name))
        pending += [os.path.join(front, name) for name in inner]
        found.inner |= {os.path.join(front, name) for name in inner}
    return without_ignored(folder, found)


def walked(folder, found, front, wanted):
    """The names of the files below a folder that are wanted, and the repositories in it; folders that cannot be read are added to what is
    found. What git ignores is passed over; git is asked of what it doesn't know alone, and of all that is as deep at once."""
    known = git.known(folder)
    tracked = with_folders(known or [])
    names, inner, level = [], [], [""]
    while level:
        files, folders = [], []
        for here in level:
            try:
                rows = rows_of(os.path.join(folder, here))
            except OSError:
                found.closed[os.path.join(front, here)] = UNOPENED
                continue
            if here and any(name == ".git" for name, _ in rows):
                inner.append(here)
                continue
            files += [os.path.join(here, name) for name, is_folder in rows if not is_folder and wanted(name)]
            folders += [os.path.join(here, name) for name, is_folder in rows if is_folder and name != ".git"]
        passed = set() if known is None else git.ignored(folder, [name for name in files + folders if name not in tracked])
        names += [name for name in files if name not in passed]
        level = [name for name in folders if name not in passed]
    return names, inner


def with_folders(names):
    """These names, and those of the folders that they are in."""
    all_names = set(names)
    for name in names:
        above = os.path.dirname(name)
        while above and above not in all_names:
            all_names.add(above)
            above = os.path.dirname(above)
    return all_names


def rows_of(folder):
    """The names in a folder, each with whether it is a folder. That it was read is not noted in it where the system lets that be left out,
    since a disk would be kept busy by these notes while the files are written."""
    try:
        place = os.open(folder, FOLDER | UNNOTED)
    except PermissionError:  # another user's folder
        place = os.open(folder, FOLDER)
    try:
        with os.scandir(place) as entries:
            return [(entry.name, entry.is_dir(follow_symlinks=False)) for entry in entries]
    finally:
        os.close(place)


# ---- what a workspace leaves aside


def roots_in(names):
    """The folders among these files that are roots of workspaces."""
    return {os.path.dirname(name) for name in names if os.path.basename(name) in ROOT_NAMES}


def without_ignored(folder, found):
    """The same without what a workspace there, or the one that it is in, leaves aside; and without a workspace of which that cannot be read."""
    real = os.path.realpath(folder)
    above = root_above(real, found.foreign)
    front = os.path.relpath(real, above) if above else ""
    roots = [(root, "") for root in sorted(roots_in(found.files))] + ([(os.path.relpath(above, real), front)] if above not in (None, real) else [])
    tests = list(filter(None, (rule_of(folder, *root, found) for root in roots)))
    within = within_one_of(lambda name: any(test(name) for test in tests))
    found.files = {name: row for name, row in found.files.items() if not within(name)}
    found.links = [name for name in found.links if not within(name)]
    return found


def rule_of(folder, root, front, found):
    """A function that says which folders the workspace of a root leaves aside; `front` is the name of this folder from a root above it."""
    try:
        rule = Ignored(os.path.join(folder, root))
    except Unread as fault:
        found.closed[os.path.join(root, fault.args[0])] = UNOPENED
        return lambda name: front or name == root or not root
    if front:
        return lambda name: bool(name) and rule.has(os.path.join(front, name))
    inner = root and f"{root}/"
    return (lambda name: name.startswith(inner) and rule.has(name[len(inner) :])) if rule.names or rule.patterns else None


def within_one_of(is_one):
    """A function that says whether a file is below a folder that is one of some (a function of its name)."""
    known = {"": bool(is_one(""))}

    def is_below(folder):
        passed = []
        while folder not in known and not is_one(folder):
            passed.append(folder)
            folder = os.path.dirname(folder)
        known.setdefault(folder, True)
        known.update(dict.fromkeys(passed, known[folder]))
        return known[folder]

    return lambda name: is_below(os.path.dirname(name))
