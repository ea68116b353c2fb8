#!/usr/bin/env python3
"""Writes the counts in docs/internals/GATE.md anew: how many functions each crate has in its src/, how many wrong bodies of it each gate tries,
and how many further ones `make edits`; and the sums of these.

    tools/counts.py
"""
import re

from blocks import cells_of
from crates import TOP, libraries_of

PAGE = TOP / "docs" / "internals" / "GATE.md"
FUNCTION, COMMENT = re.compile(r"\bfn [a-z_]\w*"), re.compile(r"//.*")
# the columns of the table, and the sentence with the sums
FUNCTIONS, AT_GATE, FURTHER = "Functions", "Edits at the gate", "Edits by `make edits`"
SUMS = re.compile(r"\d+ are tried at each gate, the bodies that the promises name, and [\d,]+ by `make edits`")


def edits(folder):
    return len(list((TOP / folder).glob("*.edit")))


def counted(crate):
    """The numbers of a crate, by the column in which they are."""
    texts = [COMMENT.sub("", file.read_text()) for file in (TOP / "crates" / crate / "src").rglob("*.rt")]
    functions = sum(len(FUNCTION.findall(text)) for text in texts)
    return {FUNCTIONS: functions, AT_GATE: edits(f"crates/{crate}/must-fail"), FURTHER: edits(f"edits/{crate}")}


def renewed(page):
    """The text of the page with each count as it is now."""
    found, header, lines = {crate: counted(crate) for crate in libraries_of()}, [], []
    for line in page.splitlines(keepends=True):
        cells = cells_of(line) if line.startswith("| ") else []
        header = cells if cells and FURTHER in cells else header
        if cells and len(cells) == len(header) and cells[0] in found:
            numbers = {header.index(column): str(number) for column, number in found[cells[0]].items()}
            line = "".join(f"| {cell} " if cell else "| " for cell in (numbers.get(at, cell) for at, cell in enumerate(cells))) + "|\n"
        lines.append(line)
    gate, further = (sum(row[column] for row in found.values()) for column in (AT_GATE, FURTHER))
    return SUMS.sub(f"{gate} are tried at each gate, the bodies that the promises name, and {further:,} by `make edits`", "".join(lines))


if __name__ == "__main__":
    PAGE.write_text(renewed(PAGE.read_text()))
