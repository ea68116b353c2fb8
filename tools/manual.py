#!/usr/bin/env python3
"""Makes the pages buildozer.1 and buildifier.1, in the macros of man, from pages of docs/: buildozer.md, buildifier.md, refusals.md and
the section of COMING.md on what differs; buildozer-tree.1 and buildifier-tree.1 from contrib/tree/README.md; and kinduzar-coming.7, which is
COMING.md as a whole. What a page says is in these alone; here is only where each block of them goes.

The paragraphs become the description, the examples the examples, each table a section of its own. An example stays in the
description where the paragraph above it ends with a colon. Of the tables of refusals and of other lines the page of a program
leaves out what only the other one says.

    tools/manual.py FOLDER        puts the pages into FOLDER/man/man1 and man7; a page that is there and would not change stays
"""
import pathlib
import re
import sys
import textwrap

from blocks import CODE, COMING, OF_TREES, REFERENCE, Example, Paragraph, Points, Table, sections
from version import version

PROGRAMS = ["buildozer", "buildifier"]
TREES = ["buildozer-tree", "buildifier-tree"]
WIDTH = 78
# the section of a page for each table, by the first word of its header, in the order of the pages
TABLES = {"Mode": "OPTIONS", "Type": "OPTIONS", "Option": "OPTIONS", "Command": "COMMANDS", "Target": "TARGETS", "Attributes": "ATTRIBUTES",
          "Status": "EXIT STATUS", "Number": "REFUSALS", "Line": "DIAGNOSTICS"}  # fmt: skip
# what is before each row's name
FRONTS = {"Mode": "--mode=", "Type": "--type="}
# the column after the name is printed without its header where that says only what the table is for
UNTOLD = ("What", "Their", "Means", "When", "Here", "For example")
REFUSALS, DIFFERENCES = "Refusals and other lines on standard error", "What differs from bazelbuild's tools"
LIMITS = "Limits"
# the page that COMING.md is, with what it does
COMPARES, COMPARED = "kinduzar-coming", "what bazelbuild's buildozer and buildifier do otherwise"
DOCUMENTS = f"{COMPARES}(7), which is docs/COMING.md, compares the tools table by table. The documents that this page names are in the archive, and "
DOCUMENTS += "beside the sources; contrib/compat/compat.sh is installed below share/kinduzar/, too."
# sections that are whole ones of a page too
WHOLE = {
    "buildozer": ["When a command is refused", "Undo across runs"],
    "buildozer-tree": ["Undo of a whole run", "Which files and packages", "When a run is stopped"],
    "buildifier-tree": ["Which files and packages", "When a run is stopped"],
}
# a refusal of a text, which both programs report; those after them are of labels, targets and commands
LAST_OF_TEXTS = 8
# this line is buildozer's, though it doesn't name it
LINES_OF_BUILDOZER = ["`FILE: no operands`"]
LINK = re.compile(r"\[([^\]]*)\]\([^)]*\)")
# signs that roff reads as others than they are
SIGNS = {"\\": r"\e", "`": r"\(ga", "^": r"\(ha", "~": r"\(ti"}
CODE_SIGNS = {**SIGNS, "-": r"\-", "'": r"\(aq", '"': r"\(dq"}


# ---- texts as roff reads them


def written(text, signs):
    """A text whose signs mean themselves."""
    return "".join(signs.get(sign, sign if sign.isascii() else rf"\[u{ord(sign):04X}]") for sign in text)


def bold(code):
    return rf"\fB{written(code, CODE_SIGNS)}\fR"


def form(code):
    """The form of a command, an option or a line: what is to be filled in, in capitals, is slanted."""
    pieces = re.split(r"\b([A-Z]+)\b(?!\.bazel)", code)
    return "".join(rf"\fI{written(piece, CODE_SIGNS)}\fR" if at % 2 else bold(piece) if piece else "" for at, piece in enumerate(pieces))


def inline(text, code=bold):
    """A text in which some is between marks of code. Of a link its text stays, since a page of man leads nowhere."""
    pieces = CODE.split(text)
    return "".join(code(piece) if at % 2 else written(LINK.sub(r"\1", piece.replace("**", "")), SIGNS) for at, piece in enumerate(pieces))


def guarded(line):
    """A line of text that roff would else take as a request."""
    return rf"\&{line}" if line[:1] in (".", "'") else line


def filled(text):
    lines = textwrap.wrap(inline(text), WIDTH, break_long_words=False, break_on_hyphens=False)
    return [guarded(line) for line in lines]


def sentence(text):
    """A text that is alone, with a capital letter and a full stop; code, and the name of a program, stay as they are."""
    if CODE.fullmatch(text):
        return text
    begun = text if text.startswith(("`", *PROGRAMS)) else text[:1].upper() + text[1:]
    return begun if begun.endswith((".", ":")) else begun + "."


# ---- blocks


def example(block):
    return [".PP", ".RS 4", ".EX", *(guarded(written(line, CODE_SIGNS)) for line in block.lines), ".EE", ".RE"]


def row(header, cells):
    """A row of a table as an entry of a list: its name, or its number and its name, and then what is said of it."""
    named = 2 if header[0] == "Number" else 1
    name = " ".join(cells[:named]).replace("`", f"`{FRONTS.get(header[0], '')}", 1)
    name, *remarks = re.split(r"[:;] ", name, maxsplit=1) if header[0] == "Attributes" else [name]
    lines = [".TP", inline(name, form), *(line for remark in remarks for line in filled(sentence(remark)))]
    for title, cell in zip(header[named:], cells[named:]):
        told = cell if not title or title.startswith(UNTOLD) else f"{title}: {cell}"
        lines += [*[".br"] * (len(lines) > 2), *filled(told if title == "Example" else sentence(told))] if cell else []
    return lines


def block_lines(block):
    if isinstance(block, Table):
        return [line for cells in block.rows for line in row(block.header, cells)]
    if isinstance(block, Points):
        return [line for text in block.texts for line in (r".IP \(bu 2", *filled(text))]
    return example(block) if isinstance(block, Example) else [".PP", *filled(block.text)]


# ---- pages


def is_told_by(program, header, cells):
    """Whether a row of the tables of refusals and lines is for the page of a program."""
    text = " ".join(cells)
    if program in text or header[0] not in ("Number", "Line"):
        return True
    if header[0] == "Number":
        return program == "buildozer" or int(cells[0]) <= LAST_OF_TEXTS
    return not any(other in text for other in PROGRAMS) and (program == "buildozer" or cells[0] not in LINES_OF_BUILDOZER)


def sorted_blocks(program, found):
    """The blocks of a program's page, by the section where each goes."""
    own = found[program]
    first = CODE.sub(lambda code: f"`{program}`", own[0].text, count=1)
    parts = {title: [] for title in ("DESCRIPTION", *TABLES.values())}
    above = None
    for block in [Paragraph(first), *own[1:], *found.get(REFUSALS, [])]:
        if isinstance(block, Table):
            rows = [cells for cells in block.rows if is_told_by(program, block.header, cells)]
            parts.setdefault(TABLES.get(block.header[0], block.header[0].upper()), []).append(Table(block.header, rows))
        elif block in found.get(REFUSALS, []):
            parts["DIAGNOSTICS"].append(block)
        elif isinstance(block, Example) and not above.text.endswith(":"):
            parts.setdefault("EXAMPLES", []).append(block)
        else:
            parts["DESCRIPTION"].append(block)
        above = block if isinstance(block, Paragraph) else Paragraph("")
    parts["EXAMPLES"] = parts.pop("EXAMPLES", [])
    whole = {title.upper(): found[title] for title in WHOLE.get(program, [])}
    return {**parts, **whole, "LIMITS": found.get(LIMITS, []), "COMPATIBILITY": found.get(DIFFERENCES, [])}


def page(name, part, does, parts):
    """A page of a part of the manual, of the lines of each of its sections."""
    word, day = version()
    others = ", ".join(rf"\fB{other}\fR({at})" for other, at in [*((other, 1) for other in [*PROGRAMS, *TREES]), (COMPARES, 7)] if other != name)
    lines = [
        r'.\" Made by tools/manual.py from docs/.',
        f'.TH {name.upper()} {part} {day} "kinduzar {written(word, CODE_SIGNS)}" "{"User Commands" if part == 1 else "Miscellanea"}"',
        ".SH NAME", rf"{name} \- {does}",
    ]  # fmt: skip
    for title, told in {**parts, "SEE ALSO": [others, ".PP", *filled(DOCUMENTS)]}.items():
        lines += [f".SH {title}", *told] if told else []
    # a paragraph right after the heading of a section is one by itself
    return re.sub(r"(?m)^(\.SH .*\n)\.PP\n", r"\1", "\n".join(lines) + "\n")


def section_lines(blocks):
    return [line for block in blocks for line in block_lines(block)]


def page_of_program(program, found):
    synopsis = CODE.search(found[program][0].text)[1]
    # a dot within a word, such as that of .bzl, ends no sentence
    does = re.split(r"[;.](?:\s|$)", CODE.sub("", found[program][0].text, count=1))[0].strip()
    parts = {title: section_lines(blocks) for title, blocks in sorted_blocks(program, found).items()}
    return page(program, 1, does, {"SYNOPSIS": [form(synopsis)], **parts})


def page_that_compares():
    (_, first), *others = sections(COMING).items()
    parts = {"DESCRIPTION": first} | {title.upper(): blocks for title, blocks in others}
    return page(COMPARES, 7, written(COMPARED, SIGNS), {title: section_lines(blocks) for title, blocks in parts.items()})


def put(file, text):
    """Writes a file whole, where it differs, in two steps, so that who reads it finds one of both."""
    if file.exists() and file.read_text() == text:
        return
    file.parent.mkdir(parents=True, exist_ok=True)
    new = file.with_name(f"{file.name}.new")
    new.write_text(text)
    new.replace(file)


def main():
    for programs, pages in ((PROGRAMS, REFERENCE), (TREES, OF_TREES)):
        found = sections(pages)
        for program in programs:
            put(pathlib.Path(sys.argv[1], "man", "man1", f"{program}.1"), page_of_program(program, found))
    put(pathlib.Path(sys.argv[1], "man", "man7", f"{COMPARES}.7"), page_that_compares())


if __name__ == "__main__":
    main()
