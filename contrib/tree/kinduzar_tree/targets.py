"""What buildozer-tree is to do: the operands, those with `...` taken apart into packages.

A pattern is a target of which the package ends with `...`. It means the package before that and all below it which have a BUILD file and
are in the same workspace, sorted by name.
"""
import collections
import dataclasses
import os

from . import walk
from .names import BUILD_NAMES, ROOT_NAMES, build_file, files_among, is_text
from .words import Usage

DOTS = "..."
# the words after a colon by which no rule may be meant, so that a package without any is no fault
MAY_MEAN_NONE = ("all", "*")
# commands that look at the package of their target alone
OF_PACKAGES = ("new", "new_load", "replace_load", "substitute_load", "use_repo_add", "use_repo_remove", "fix", "format", "undo", "redo", "journal")


@dataclasses.dataclass
class Target:
    """A package, with slashes and none at its ends, and what is after the colon; None where there is no colon."""

    package: str
    which: str

    def __str__(self):
        return f"//{self.package}" if self.which is None else f"//{self.package}:{self.which}"

    @property
    def is_pattern(self):
        return self.package == DOTS or self.package.endswith(f"/{DOTS}")

    @property
    def front(self):
        """The package before the dots."""
        return self.package[: -len(DOTS)].rstrip("/")

    def names_rules(self, line):
        """Whether it is a pattern of which a line wants rules that a package may lack."""
        return self.is_pattern and line.looks_at_rules() and not self.may_mean_none()

    def may_mean_none(self):
        return self.which in MAY_MEAN_NONE or (self.which or "").startswith("%") and not self.which[1:].isdigit()


@dataclasses.dataclass
class Line:
    """The operands of a command line, or of a line of a file: its number there, the commands, and the targets."""

    number: int
    commands: list
    targets: list

    def looks_at_rules(self):
        return any(command.split(" ")[0] not in OF_PACKAGES for command in self.commands)


def is_target(operand):
    """Whether buildozer takes an operand for a target, or it is a pattern without a colon."""
    return " " not in operand and (":" in operand or operand.startswith("//") or operand == DOTS or operand.endswith(f"/{DOTS}"))


def target(operand, here):
    """The target of an operand; `here` is the package of the working directory, which those without slashes go from."""
    absolute = operand.startswith("//")
    package, colon, which = (operand[2:] if absolute else operand).partition(":")
    if package == "-" and not absolute:
        raise Usage("package - is standard input, which buildozer edits")
    if not absolute:
        package = "/".join(filter(None, [here, package]))
    return Target(package, which if colon else None)


def line_of(operands, here, number=0):
    commands = [operand for operand in operands if not is_target(operand)]
    return Line(number, commands, [target(operand, here) for operand in operands if is_target(operand)])


def lines_in(text, here):
    """The lines of a file, as buildozer reads them: operands between bars, without empty lines and comments."""
    found = []
    for number, row in enumerate(os.fsdecode(text.removeprefix(b"\xef\xbb\xbf")).split("\n"), 1):
        row = row.removesuffix("\r")
        if row and not row.startswith("#"):
            found.append(line_of(row.split("|"), here, number))
    return found


def written(line, targets):
    """The operands of a line as a line of a file; None where one of them has a sign that ends it or divides it."""
    operands = [*line.commands, *map(str, targets)]
    if any(sign in operand for operand in operands for sign in "|\n\0") or operands[0].startswith("#"):
        return None
    return "|".join(operands) + "\n"


# ---- packages


def may_be_named(package):
    """Whether buildozer can be given a target of this package."""
    return is_text(package) and not any(sign in package for sign in " :\n\r|\0") and not package.startswith("#")


# The packages below one, those that no target can name, those of which the file is a link, and what could not be read, with why.
Packages = collections.namedtuple("Packages", "named unnamed links closed")


def packages_below(root, front):
    """The packages at and below one, without those of workspaces in it."""
    folder = os.path.join(root, front)
    if not os.path.isdir(folder) or front and inside(front, root):
        return Packages([], [], [], {})
    found = walk.below(folder, lambda name: name in BUILD_NAMES or name in ROOT_NAMES)
    within = walk.within_one_of((walk.roots_in([*found.files, *found.links]) - {""}).__contains__)
    there = {os.path.dirname(name) for name in [*found.files, *found.links] if os.path.basename(name) in BUILD_NAMES and not within(name)}
    links = {name for name in there if os.path.islink(os.path.join(folder, name, build_file(os.path.join(folder, name)) or ""))}
    names = {place(front, name) for name in there - links}
    named = sorted(name for name in names if may_be_named(name))
    closed = {place(front, name): why for name, why in found.closed.items() if not within(name)}
    return Packages(named, sorted(names - set(named)), sorted(place(front, name) for name in links), closed)


def place(package, name):
    """A name below a package, from the root."""
    return "/".join(filter(None, [package, name]))


def names_of(root, package):
    """The file that a target names in the place of a package, or those that may be the package's: one that cannot be opened leaves the turn to the next."""
    return [package] if os.path.isfile(os.path.join(root, package)) else [place(package, name) for name in BUILD_NAMES]


def settled(root, one):
    """A target of which the package is written as its BUILD file, by the package."""
    folder, base = os.path.split(one.package)
    return Target(folder, base if one.which is None else one.which) if base == build_file(os.path.join(root, folder)) else one


def inside(front, root):
    """Whether a package is in a workspace below the root."""
    parts = front.split("/")
    return any(files_among(os.path.join(root, *parts[:end]), ROOT_NAMES) for end in range(1, len(parts) + 1))


# ---- kinds


def of_kinds(one, kinds):
    """The targets that mean, of what a target means, the rules of these kinds; None where that depends on the rules of the package."""
    if one.which in MAY_MEAN_NONE:
        return [Target(one.package, f"%{kind}") for kind in kinds]
    if one.which is not None and one.which.startswith("%") and one.may_mean_none():
        return [one] if one.which[1:] in kinds else []
    return None
