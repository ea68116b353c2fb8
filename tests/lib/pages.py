"""The pages, what they say, and what the code says of the same; and the programs in a folder that is on the PATH, as the pages have them."""

import contextlib
import pathlib
import re
import subprocess
import tempfile

from .runs import environment_with
from .scenes import TOP, different

README = TOP / "README.md"
TREES = sorted(TOP.glob("contrib/tree/*-tree"))
# the page of each crate
CRATE_PAGES = sorted(TOP.glob("crates/*/README.md"))
# README comes first, so that its examples have the first numbers
PAGES = sorted([*TOP.glob("*.md"), *TOP.glob("docs/**/*.md"), *TOP.glob("contrib/*/*.md"), *CRATE_PAGES], key=lambda page: (page != README, page))
# the pages that have the tables of commands, options, targets, statuses, attributes and refusals
REFERENCE = "".join((TOP / "docs" / page).read_text() for page in ("buildozer.md", "buildifier.md", "refusals.md"))
CRATES = TOP / "crates"
# the pages for who carries on
INTERNALS = TOP / "docs" / "internals"
# lines with four spaces before them, and the empty ones between them
BLOCK = re.compile(r"(?:^ {4}.*\n(?:\n+(?= {4}))?)+", re.MULTILINE)
COMMAND = re.compile(r"^\$ (.*)\n", re.MULTILINE)
CODE = re.compile(r"`([^`]+)`")
# where a link leads, in this repository; what is in a block of code or between marks of code is no link
LINK = re.compile(r"\]\((?!\w+:)([^)#]+)(?:#[^)]*)?\)")
# a row of the code's tables of numbers
NUMBER = re.compile(r"\b(?:\w+Fault|Refusal)::(\w+)(?: \{ \.\. \})? => (\d+),")
# a row of the table of why a journal is refused, in which the name and the number are one text
TOLD = re.compile(r'\bResumeFault::(\w+) => \w+\(\s*err,\s*journal,\s*"\1 \((\d+)\)",')


class Place:
    """A folder in which commands run, with the built programs and the commands for whole trees on the PATH."""

    def __init__(self, built, path, folder):
        self.path, self.folder = path, folder
        for program in [*built, *TREES]:
            # a link, since they are large and each scene has such a folder
            (self.path / program.name).symlink_to(program)

    def run(self, command, text=b"", shell=("sh",)):
        """The status and both outputs, as one, of a command of a shell or of a list of words."""
        words = [*shell, "-c", command] if isinstance(command, str) else command
        how = {"stdout": subprocess.PIPE, "stderr": subprocess.STDOUT, "timeout": 60}
        run = subprocess.run(words, cwd=self.folder, env=environment_with(self.path), input=text, **how)
        return run.returncode, run.stdout.decode(errors="replace")


@contextlib.contextmanager
def on_path(built):
    """Makes of the programs such a place."""
    with tempfile.TemporaryDirectory() as path, tempfile.TemporaryDirectory() as folder:
        yield Place(built, pathlib.Path(path), pathlib.Path(folder))


# ---- what the pages say


def examples(page):
    """The blocks of code of a page that have commands, each without its margin."""
    blocks = (re.sub(r"^ {4}", "", block, flags=re.MULTILINE) for block in BLOCK.findall(page.read_text()))
    return [block for block in blocks if COMMAND.search(block)]


def named_examples():
    """Those of all pages, each by its page, which README's go without, and its number there."""
    named = {}
    for page in PAGES:
        front = "" if page == README else f"{page.relative_to(TOP)} "
        named.update({f"{front}example {number}": block for number, block in enumerate(examples(page), 1)})
    return named


def rows_of(header):
    """The cells of each row of the tables whose header begins so."""
    rows = []
    for found in re.finditer(rf"^\| {header} \|.*\n\|[-|]+\|\n((?:\|.*\n)+)", REFERENCE, re.MULTILINE):
        rows += [re.split(r"(?<!\\)\|", line)[1:-1] for line in found[1].splitlines()]
    return [[cell.strip() for cell in row] for row in rows]


def links_of(page):
    """The files to which a page links."""
    text = CODE.sub("", BLOCK.sub("", page.read_text()))
    return {(page.parent / target).resolve() for target in LINK.findall(text)}


# ---- what the code says


def definition(file, name):
    """The definition of this name, in a file of definitions."""
    found = re.search(rf"^{name} =.*\n(?: {{4}}.*\n)*", (CRATES / file).read_text(), re.MULTILINE)
    return found[0] if found else ""


def texts_in(file, name):
    return re.findall(r'codes "(\w+)"', definition(file, name))


def refusals_of_code():
    texts = [file.read_text() for file in CRATES.glob("bz_*/src/*.rt")]
    return sorted({(int(number), name) for row in (NUMBER, TOLD) for text in texts for name, number in row.findall(text)})


def different_from_code(what, of_pages, of_code):
    return different(what, of_pages, of_code) if of_code else [f"{what}: nothing is found in the code"]
