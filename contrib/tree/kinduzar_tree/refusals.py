"""What the programs wrote to standard error, by the file that each line is about."""
import os

from .state import keep
from .terminal import command_line, counted, shown

# the command line that goes on has at most so many names; more go into a file
MOST_NAMES = 20

# how a line begins that is no refusal: it notes something of an edit, or of a file that was formatted; and one on a root above, which is said here of one that is passed over
NOTE, ROOT_NOTE = (b"buildozer: note: ", b"buildifier: note: "), b"buildozer: note: the root of the workspace is "


def by_name(err, fronts):
    """The lines of standard error by what they are about, in their order: `fronts` gives for the beginning of a line what that is. A
    line that begins with none of them goes with the one above it, one above all of them with None."""
    found, key = {}, None
    for line in err.split(b"\n")[:-1]:
        about = [front for front in fronts if line.startswith(front)]
        if about:
            key = fronts[max(about, key=len)]
        found.setdefault(key, []).append(os.fsdecode(line))
    return found


def lines_of(err):
    return [os.fsdecode(line) for line in err.split(b"\n")[:-1]]


def without_notes(err):
    """The lines of standard error that only note something of what was done, and all others."""
    lines = err.splitlines(keepends=True)
    notes = [os.fsdecode(line.rstrip(b"\n")) for line in lines if line.startswith(NOTE) and not line.startswith(ROOT_NOTE)]
    return notes, b"".join(line for line in lines if not line.startswith(NOTE))


class Refusals:
    """What was refused, by the name of the file."""

    def __init__(self):
        # the lines on each, what is noted beside, and whether something could not be read
        self.lines, self.notes, self.is_unread = {}, [], False

    def __len__(self):
        return len(self.lines)

    def add(self, name, lines, is_unread=False):
        self.lines.setdefault(name, []).extend(lines)
        self.is_unread |= is_unread

    def has_end(self, *ends):
        return any(line.endswith(ends) for lines in self.lines.values() for line in lines)

    def tell(self, screen):
        """Writes them, sorted by the names."""
        for name in sorted(self.lines):
            for line in self.lines[name]:
                screen.say(line)
        for note in dict.fromkeys(self.notes):
            screen.say(note)


def summary(parts):
    """A line of what came of how many files: numbers, each with the words after it; parts of none are left out, and the first one says 'files'."""
    there = [(number, told) for number, told in parts if number]
    texts = [f"{number:,} {told}" for number, told in there]
    if there:
        texts[0] = f"{counted(there[0][0], 'file')} {there[0][1]}"
    return ", ".join(texts)


def go_on(screen, words, names):
    """Writes the command line that goes on with just these names: with the names, or where they are many, or odd, with a file of them."""
    is_odd = any(shown(name) != name for name in names)
    file = keep(os.curdir, b"".join(os.fsencode(name) + b"\0" for name in names)) if len(names) > MOST_NAMES or is_odd else None
    dashes = ["--"] * any(name.startswith("-") for name in names)
    screen.say("to go on with just these: " + command_line([*words, *([f"--from={file}"] if file else [*dashes, *names])]))
