"""Lines that buildozer reads and prints."""

PACKAGE_HINT = b"buildozer: a package is a directory below the working directory, which is to be the root of the workspace\n"
COMMENT_HINT = b"buildozer: the text of a comment is one word, so put a backslash before each space of it\n"
TARGET_FORM = b"buildozer: the form of a target is //PACKAGE:NAME, without an empty part; a package has at most 65,536 bytes\n"
UNKNOWN = b"buildozer: there is no command of this name: see docs/buildozer.md, or man buildozer\n"
# what faults of a text mean
NOT_UTF8 = b"    the byte after that many is not UTF-8: save the file as text in UTF-8\n"
TOO_LARGE = b"    a text that is read has at most 67,108,864 bytes\n"
NO_TOKEN = b"    no name, number, string or operator begins with this character\n"
INDENTED = b"    a statement begins at the left margin or, in a suite, with the indentation of that suite\n"
FEWER = b"buildozer: there are fewer texts to go to: the command journal lists them\n"
UNKEPT = b"buildozer: to undo or redo what earlier runs did, give --journal, as in those runs\n"


def fixed(*names):
    return b"".join(b"fixed %s\n" % name.encode() for name in names)


def lines_of(*lines):
    return "".join(line + "\n" for line in lines).encode()


def refusal_of(command, why):
    """The line on a command on standard input that is refused."""
    return f"buildozer: <stdin>: {command}: {why}\n".encode()


def too_far(command, name="<stdin>"):
    """The lines on an undo or redo that finds fewer texts, of standard input or of a file with its journal."""
    return f"buildozer: {name}: {command}: TooFar (61)\n".encode() + FEWER
