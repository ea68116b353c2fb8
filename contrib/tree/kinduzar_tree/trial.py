"""Runs of buildozer that write nothing where the packages are: over copies of their files, and with the rules' labels before what `print` prints."""
import dataclasses
import os
import re
import tempfile

from .edit import Editor
from .files import MOST_TEXT, content
from .targets import names_of

# a field that no rule has, before what a line of a rule begins with: the line where the rule begins, and its name
MARK = "__label__"
RECORD = re.compile(rb"\(missing\) (\d+) (.*?) \(missing\)(?: (.*))?", re.DOTALL)
PLAIN_NAME = re.compile(rb"[^\s\"'(\[{]+")


class Trial(Editor):
    """buildozer over copies: what it would write is shown, as a difference or whole."""

    def batch(self, steps):
        with tempfile.TemporaryDirectory() as folder:
            for package, _ in steps:
                self.copy(package, folder)
            editor = Editor(self.pool, self.path, folder, [flag for flag in self.flags if flag != "--stdout"])
            editor.only = self.only
            done = editor.batch(steps)
            new = {name: content(os.path.join(folder, name), MOST_TEXT) for name in done.fixed}
        compared = (lambda name, file, text: [text]) if "--stdout" in self.flags else self.pool.difference
        done.texts = [(name, compared(name, os.path.join(self.root, name), text)) for name, text in new.items()]
        return done

    def copy(self, package, folder):
        """Copies what a run may read of a package; what cannot be read is not there, and refused as such."""
        names = names_of(self.root, package)
        names += names_of(self.root, os.path.dirname(package)) if names == [package] else []
        for name in [name for name in names if os.path.isfile(os.path.join(self.root, name)) and os.pardir not in package.split("/")]:
            os.makedirs(os.path.dirname(os.path.join(folder, name)), exist_ok=True)
            for each in [name] + [f"{name}.journal"] * ("--journal" in self.flags):
                try:
                    text = content(os.path.join(self.root, each), MOST_TEXT)
                except OSError:
                    continue
                with open(os.path.join(folder, each), "wb") as copy:
                    copy.write(text)


class Labels(Editor):
    """buildozer where only one package is in each batch, and `print` says of which rule each line is."""

    def edited(self, steps):
        package, pairs = steps[0]
        ended = super().edited([(package, [(marked(line), targets) for line, targets in pairs])])
        for line, _ in pairs:
            for command in line.commands:
                ended.err = ended.err.replace(os.fsencode(with_mark(command)), os.fsencode(command))
        ended.out = with_labels(os.fsencode(package), ended.out)
        return ended


def with_mark(command):
    return f"print {MARK} startline name {MARK} {command[6:] or 'name kind'}" if command.split(" ")[0] == "print" else command


def marked(line):
    return dataclasses.replace(line, commands=list(map(with_mark, line.commands)))


def with_labels(package, out):
    """The lines that `print` printed of a package, each after the label of its rule; one without a plain name is meant by its line."""
    lines, label = [], b""
    for line in out.split(b"\n")[:-1]:
        record = RECORD.fullmatch(line)
        if record:
            label = b"//%s:%s " % (package, record[2] if PLAIN_NAME.fullmatch(record[2]) else b"%" + record[1])
            line = record[3] or b""
        lines.append(label + line + b"\n")
    return b"".join(lines)
