"""The form of a journal, written from what it says: so the scripts on journals know the bytes that must come without a call of the
program, and forge others under a right closing digest.

A journal is a list of pieces, each a line up to where its numbers end, and what is after these as it is; so a number can be
written in another way wherever it is.
"""

import collections
import hashlib
import re

# a line of numbers, and the bytes after them
Piece = collections.namedtuple("Piece", "head body")
Step = collections.namedtuple("Step", "edits note", defaults=[b""])
# What a journal says. The digests are those of the texts, where none are given.
Journal = collections.namedtuple("Journal", "package texts cursor before steps version digests", defaults=[2, None])

NUMBER = re.compile(rb"(?<= )\d+")
# numbers of classes and kinds
NAME, DIGITS, STRING, MARK, NEWLINE = 1, 3, 4, 5, 6
ASSIGN, NAMED, LIST, PAREN = 4, 22, 26, 29


def digest(text):
    return hashlib.sha256(text).hexdigest().encode()


def leaf(number, gap, token):
    return [Piece(b"leaf %d %d %d\n" % (number, len(gap), len(token)), gap + token + b"\n")]


def node(kind, *parts):
    return [Piece(b"node %d %d\n" % (kind, len(parts)), b""), *(piece for part in parts for piece in part)]


def edit(path, at, count, *held):
    """The edit at a place, which holds these parts."""
    numbers = [len(path), *path, at, count, len(held)]
    return [Piece(b"edit" + b"".join(b" %d" % number for number in numbers) + b"\n", b""), *(piece for part in held for piece in part)]


def step_pieces(step, version):
    note = [Piece(b"note %d " % len(step.note), step.note + b"\n")] if version == 2 else []
    return [Piece(b"step %d\n" % len(step.edits), b""), *note, *(piece for each in step.edits for piece in each)]


def pieces(journal):
    """All of it but the last line."""
    text = journal.texts[journal.cursor]
    digests = [digest(text) for text in journal.texts] if journal.digests is None else journal.digests
    found = [
        Piece(b"bzjournal %d\n" % journal.version, b""),
        Piece(b"package %d " % len(journal.package), journal.package + b"\n"),
        Piece(b"text %d\n" % len(text), text + b"\n"),
        Piece(b"steps %d now %d before %d\n" % (len(journal.steps), journal.cursor, journal.before), b""),
    ]
    found += [Piece(b"", b"digest " + each + b"\n") for each in digests]
    return found + [piece for step in journal.steps for piece in step_pieces(step, journal.version)]


def joined(some):
    return b"".join(piece.head + piece.body for piece in some)


def closed(lines):
    """Lines and the last one, which has their digest."""
    return lines + b"end " + digest(lines) + b"\n"


def spelled(journal):
    return closed(joined(pieces(journal)))


def numbers_in(some):
    """Where numbers are in pieces after the first line: the piece, and from where to where in its line."""
    return [(place, *found.span()) for place, piece in list(enumerate(some))[1:] for found in NUMBER.finditer(piece.head)]


def with_number(some, place, start, end, spelling):
    """The pieces with one number spelled in another way."""
    head = some[place].head
    return [*some[:place], some[place]._replace(head=head[:start] + spelling + head[end:]), *some[place + 1 :]]


def listing(texts, cursor, notes):
    """What the command `journal` prints of texts, of which the first has no note."""
    marks = [b"* " if number == cursor else b"  " for number in range(len(texts))]
    told = [b" " + note.replace(b"\n", b"\\n") if note else b"" for note in [b"", *notes]]
    return b"".join(mark + b"%d " % number + digest(text) + note + b"\n" for number, (mark, text, note) in enumerate(zip(marks, texts, told)))
