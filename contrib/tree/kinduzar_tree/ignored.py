"""The folders that a workspace has Bazel leave aside, by its .bazelignore, and by the patterns of ignore_directories in its REPO.bazel."""
import os
import re

from . import files

IGNORE, SETTINGS = ".bazelignore", "REPO.bazel"
# a string that isn't closed is one, too, so that no line is read again from each of its quotation marks
TOKEN = re.compile(r"""#[^\n]*|\s+|"(?:[^"\\\n]|\\.)*"?|'(?:[^'\\\n]|\\.)*'?|\w+|.""", re.DOTALL)
CALL = ["ignore_directories", "(", "["]


class Unread(Exception):
    """A file that says what is left aside cannot be read; the argument is its name."""


class Ignored:
    """What is left aside in the workspace of a root."""

    def __init__(self, root):
        lines = [line.strip() for line in read(root, IGNORE).split("\n")]
        self.names = {os.path.normpath(line) for line in lines if line and not line.startswith("#")} - {os.curdir}
        self.patterns = [pattern.split("/") for pattern in listed(read(root, SETTINGS))]

    def has(self, folder):
        """Whether a folder, by its name from the root, is left aside; of those below it nothing is said."""
        return folder in self.names or bool(self.patterns) and any(matches(pattern, folder.split("/"), "**", is_like) for pattern in self.patterns)


def read(root, name):
    """The text of a file of a workspace, nothing where none is there. A link that leads out of the workspace is not followed."""
    real = os.path.realpath(os.path.join(root, name))
    try:
        if os.path.relpath(real, os.path.realpath(root)).split("/")[0] == os.pardir:
            raise Unread(name)
        return os.fsdecode(files.content(real, flags=os.O_NOFOLLOW))
    except FileNotFoundError:
        return ""
    except OSError as error:
        raise Unread(name) from error


def listed(text):
    """The strings of the list that ignore_directories is given."""
    found, last = None, []
    for match in TOKEN.finditer(text) if CALL[0] in text else []:
        token = match[0]
        if token.isspace() or token[0] == "#":
            continue
        if found is None:
            last = [*last[-2:], token]
            found = [] if last == CALL else None
        elif token == "]":
            return list(filter(None, found))
        elif token[0] in "'\"":
            found.append(token[1:-1].replace("\\", "").strip("/"))
    return []


def is_like(pattern, name):
    """Whether a part of a name is meant by that of a pattern, in which a star is any text."""
    return matches(pattern, name, "*", str.__eq__)


def matches(pattern, parts, star, is_meant):
    """Whether parts are those of a pattern, in which a star is any row of parts; in time by both lengths, whatever the stars are."""
    at = to = 0
    back = None
    while to < len(parts):
        if at < len(pattern) and pattern[at] == star:
            back, at = (at, to), at + 1
        elif at < len(pattern) and is_meant(pattern[at], parts[to]):
            at, to = at + 1, to + 1
        elif back:
            at, to = back[0] + 1, back[1] + 1
            back = back[0], to
        else:
            return False
    return all(part == star for part in pattern[at:])
