"""The pages of reference as the scripts read them that make man pages and completions of them: their sections, each a list of blocks."""
import dataclasses
import pathlib
import re

TOP = pathlib.Path(__file__).resolve().parent.parent
# the page on what differs from others
COMING = ["docs/COMING.md"]
# the pages of reference: the programs' own, what they refuse, and that one
REFERENCE = ["docs/buildozer.md", "docs/buildifier.md", "docs/refusals.md", *COMING]
# that of the commands for whole trees
OF_TREES = ["contrib/tree/README.md"]
CODE = re.compile(r"`([^`]+)`")
MARGIN = "    "
# a picture alone, which no page of man has
PICTURE = re.compile(r"!\[.*\]\(.*\)")


@dataclasses.dataclass
class Paragraph:
    text: str


@dataclasses.dataclass
class Example:
    """Lines of code, without their margin."""

    lines: list


@dataclasses.dataclass
class Points:
    """A list, of which each point is a text."""

    texts: list


@dataclasses.dataclass
class Table:
    header: list
    rows: list


def cells_of(line):
    """The cells of a line of a table, in which a bar after a backslash divides nothing."""
    return [cell.strip().replace("\\|", "|") for cell in re.split(r"(?<!\\)\|", line)[1:-1]]


def block_of(lines):
    """The block of neighbouring lines."""
    first = lines[0]
    if first.startswith(MARGIN):
        return Example([line[len(MARGIN) :] for line in lines])
    if first.startswith("|"):
        return Table(cells_of(first), [cells_of(line) for line in lines[2:]])
    if first.startswith("- "):
        return Points([" ".join(point.split()) for point in re.split(r"(?m)^- ", "\n".join(lines))[1:]])
    return Paragraph(" ".join(" ".join(lines).split()))


def blocks_of(text):
    """The blocks of a section. An empty line between two lines of code belongs to the code."""
    joined = re.sub(rf"(?m)^({MARGIN}.*\n)\n+(?={MARGIN})", rf"\1{MARGIN}\n", text)
    pieces = [piece for piece in re.split(r"\n\n+", joined.strip("\n")) if piece.strip() and not PICTURE.fullmatch(piece)]
    return [block_of(piece.splitlines()) for piece in pieces]


def sections(pages):
    """The blocks of each section of some pages, by its heading."""
    text = "\n".join((TOP / page).read_text() for page in pages)
    pieces = re.split(r"(?m)^#+ (.*)\n", text)
    return {title: blocks_of(text) for title, text in zip(pieces[1::2], pieces[2::2])}


def tables_of(blocks, header):
    """The rows of all tables whose header begins so."""
    return [row for block in blocks if isinstance(block, Table) and block.header[0] == header for row in block.rows]
