#!/usr/bin/env python3
"""Makes the pages buildozer.1 and buildifier.1, and those of the commands for whole trees, and looks in them for all that the code has: each
command, option, mode, status and refusal must be there as an entry; and kinduzar-coming.7, which must have each section, row and example of
docs/COMING.md. Where `man` or `mandoc` is there, it must read the pages without a warning.

    tests/scenes/manual_pages.py
"""
import contextlib
import pathlib
import re
import shutil
import subprocess
import sys
import tempfile

from lib.pages import CODE, CRATES, TREES, examples, refusals_of_code, texts_in
from lib.scenes import TOP, Scenes, named

sys.path.append(str(TOP / "contrib" / "tree"))
from kinduzar_tree import packages, tidy  # noqa: E402


# the crates in which a program's statuses are, and the file with its options
STATUSES = {"buildozer": ("buildozer", "bz_buildozer"), "buildifier": ("buildifier", "bz_buildifier")}
OPTIONS = {"buildozer": "bz_command_line/specs/App.antt", "buildifier": "bz_buildifier/specs/Modes.antt"}
# the modules of the commands for whole trees
OF_TREES = {"buildozer-tree": packages, "buildifier-tree": tidy}
# the page of man that a page of docs/ is as a whole
COMING, COMPARES = TOP / "docs" / "COMING.md", "kinduzar-coming"
# refusals of a text; buildifier reports them all, and of the others those of a formatted text
OF_TEXTS, OF_FORMATTED = range(1, 9), (21, 22)
READERS = {
    "man": ["man", "--warnings=w", "-E", "UTF-8", "-l"],
    "mandoc": ["mandoc", "-T", "lint", "-W", "style"],
    "groff": ["groff", "-man", "-ww", "-T", "utf8", "-z"],
}


def plain(text):
    """A text of a page without the signs of its letters."""
    signs = {r"\-": "-", r"\e": "\\", r"\(aq": "'", r"\(dq": '"', r"\(ga": "`", r"\(ha": "^", r"\(ti": "~", r"\&": ""}
    text = re.sub(r"\\\[u([0-9A-F]+)\]", lambda found: chr(int(found[1], 16)), text)
    return re.sub(r"\\f[BIR]|\\-|\\e|\\&|\\\(..", lambda found: signs.get(found[0], ""), text)


class Pages:
    """The pages, made anew in a folder."""

    def __init__(self, folder):
        self.folder = pathlib.Path(folder)
        self.make()

    def make(self):
        subprocess.run([TOP / "tools" / "manual.py", self.folder], check=True, timeout=60)

    def file(self, program):
        part = 7 if program == COMPARES else 1
        return self.folder / "man" / f"man{part}" / f"{program}.{part}"

    def entries(self, program, *sections):
        """The name of each entry of a list in these sections of a page."""
        parts = re.split(r"(?m)^\.SH (.*)\n", self.file(program).read_text())
        text = "".join(text for title, text in zip(parts[1::2], parts[2::2]) if title in sections)
        return [plain(name) for name in re.findall(r"(?m)^\.TP\n(.*)", text)]


# ---- what the code says


def commands_of_code():
    return texts_in("bz_command_syntax/specs/Commands.antt", "commands") + texts_in("bz_command_line/specs/Operands.antt", r"file_verb_in \(.*")


def options_of_code(program):
    text = (CRATES / OPTIONS[program]).read_text()
    long = re.findall(r'(?:long = Some|flag_rule|option_rule) \(codes "(\w+)"\)', text)
    return [f"--{name}" for name in long] + [f"-{name}" for name in re.findall(r"short = Some letter_(\w)", text)]


def statuses_of_code(program):
    files = [file for crate in STATUSES[program] for file in (CRATES / crate / "src").glob("*.rt")]
    return sorted({number for file in files for number in re.findall(r"const [A-Z]+: u8 = (\d+);", file.read_text())})


# ---- scenes


def missing(what, wanted, found):
    return [f"{what}: nothing was found in the code"] * (not wanted) + [f"{what}: {name}" for name in wanted if name not in found]


def commands(pages):
    names = [form.split()[0] for entry in pages.entries("buildozer", "COMMANDS") for form in entry.split(", ")]
    return missing("commands", commands_of_code(), names) + missing("commands that are none", names, commands_of_code())


def options(pages):
    wrong = []
    for program in OPTIONS:
        names = [re.split("[ =]", entry)[0] for entry in pages.entries(program, "OPTIONS")]
        wrong += missing(program, options_of_code(program), names) + missing(f"{program} has not", names, options_of_code(program))
    return wrong


def options_of_trees(pages):
    """Those of the code are on the page and in the text of --help, and no others."""
    wrong = [] if {file.name for file in TREES} == set(OF_TREES) else ["a command has no module"]
    for command, module in OF_TREES.items():
        wanted = {*module.FLAGS, *module.VALUED} - {"--help", "--version"}
        named = {re.split("[ =]", entry)[0] for entry in pages.entries(command, "OPTIONS")}
        helped = set(re.findall(r"(?m)^  (--?[\w-]+)", module.HELP))
        wrong += missing(f"page of {command}", wanted, named) + missing(f"page of {command} has", named, wanted)
        wrong += missing(f"{command} --help", wanted, helped) + missing(f"{command} --help has", helped - {"--help"}, wanted)
    modes = [entry.partition("=")[2].split()[0] for entry in pages.entries("buildifier-tree", "OPTIONS") if entry.startswith("--mode=")]
    return wrong + missing("modes", tidy.MODES, modes)


def words_of_options(pages):
    wrong = []
    for option in ("mode", "type"):
        names = [entry.partition("=")[2].split()[0] for entry in pages.entries("buildifier", "OPTIONS") if entry.startswith(f"--{option}=")]
        wrong += missing(f"words of --{option}", texts_in("bz_buildifier/specs/Modes.antt", f"{option}_called name"), names)
    return wrong


def statuses(pages):
    return [fault for program in STATUSES for fault in missing(program, statuses_of_code(program), pages.entries(program, "EXIT STATUS"))]


def refusals(pages):
    all_of_them = [(number, f"{number} {name}") for number, name in refusals_of_code()]
    few = [name for number, name in all_of_them if number in OF_TEXTS or number in OF_FORMATTED]
    wrong = missing("buildozer", [name for _, name in all_of_them], pages.entries("buildozer", "REFUSALS"))
    return wrong + missing("buildifier", few, pages.entries("buildifier", "REFUSALS"))


def what_differs(pages):
    """Each section, each name in a row and each line of an example of the page is in that of man."""
    text, made = COMING.read_text(), pages.file(COMPARES).read_text()
    titles = [f".SH {title.upper()}" for title in re.findall(r"(?m)^## (.*)", text)]
    names = [name for row in re.findall(r"(?m)^\| (.*?) \|", text) for name in CODE.findall(row)]
    entries = "\n".join(re.findall(r"(?m)^\.TP\n(.*)", plain(made)))
    lines = [line for example in examples(COMING) for line in example.splitlines()]
    wrong = missing("sections", titles, made.splitlines()) + missing("rows", names, entries)
    return wrong + missing("lines of examples", lines, plain(made).splitlines())


def readers_warn_of_nothing(pages):
    wrong = []
    for reader, command in READERS.items():
        if not shutil.which(reader):
            SCENES.say(f"not run with {reader}, which is not there")
            continue
        for program in [*STATUSES, *OF_TREES, COMPARES]:
            run = subprocess.run([*command, pages.file(program)], stdout=subprocess.PIPE, stderr=subprocess.PIPE, text=True, timeout=60)
            told = (run.stderr + (run.stdout if reader == "mandoc" else "")).splitlines()
            wrong += [f"{reader}: {program}: {run.returncode}: {told[:3]}"] * bool(told or run.returncode)
    return wrong


def a_page_that_would_not_change_stays(pages):
    files = [pages.file(program) for program in [*STATUSES, COMPARES]]
    before = [(file.read_text(), file.stat().st_mtime_ns) for file in files]
    pages.make()
    again = [file.name for file, (text, time) in zip(files, before) if file.stat().st_mtime_ns != time and file.read_text() == text]
    return [f"{name} was written again" for name in again]


def no_point_begins_with_an_option(pages):
    """fish makes a completion of each such point, whether the program has that option or not."""
    texts = {program: pages.file(program).read_text() for program in STATUSES}
    points = {program: re.findall(r"(?m)^\.IP .*\n(.*)", text) for program, text in texts.items()}
    return [f"{program}: {point}" for program, found in points.items() for point in found if plain(point).startswith("-")]


@contextlib.contextmanager
def pages():
    with tempfile.TemporaryDirectory() as folder:
        yield Pages(folder)


MANUAL = named(
    commands, options, options_of_trees, words_of_options, statuses, refusals, what_differs, readers_warn_of_nothing,
    a_page_that_would_not_change_stays, no_point_begins_with_an_option,
)  # fmt: skip
SCENES = Scenes(__file__, MANUAL, pages)

if __name__ == "__main__":
    SCENES.main()
