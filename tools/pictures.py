#!/usr/bin/env python3
"""Draws docs/internals/layers.svg, the crates with the libraries that they depend on, from crates.txt; docs/history.svg, a history of
texts; and docs/terminal.svg, a terminal with an example of README.md, which tests/scenes/readme.py runs, so that the picture is true.

    tools/pictures.py [--check]

With --check nothing is written: the status is 1 where a picture is not the one that would be drawn, and a line names it.

In the first picture each crate is above all that it depends on. A line goes to a library only where no other line leads there
through a library in between. A line that passes by rows has a bend in each of them, and bends and crates are brought into an order in
which few lines cross. Below a crate's name are the crates of others that it names.
"""
import functools
import re
import sys
from html import escape
from xml.etree import ElementTree

from crates import TOP, below, libraries_of

PAPER, INK, FAINT, LINE = "#fbfaf7", "#222222", "#6b6b6b", "#8a93a0"
LIBRARY, PROGRAM, MARKED = "#e4edf7", "#f6e6cf", "#cfe8d5"
HIGH, ACROSS, DOWN, MARGIN = 34, 20, 40, 24
# how large the name of a crate is, and those below it; no font in which they are shown has wider letters in the mean than this part of that
NAME, BELOW, LETTER = 12, 8, 0.62
BEND = 10
ROUNDS = 40


# ---- an SVG, as a list of its elements


def shape(tag, **attributes):
    """An element; a name's underscore means a dash."""
    return f"<{tag} " + " ".join(f'{name.replace("_", "-")}="{value}"' for name, value in attributes.items()) + "/>"


# how a text is where it doesn't say otherwise
TEXT = {"font_size": 13, "fill": INK, "text_anchor": "middle"}


def words(x, y, text, **further):
    """A line of text at a place."""
    other = {name: value for name, value in further.items() if TEXT.get(name) != value}
    return shape("text", x=x, y=y, **other)[:-2] + f">{escape(text)}</text>"


def box(x, y, width, height, fill, stroke=LINE, **further):
    return shape("rect", x=x, y=y, width=width, height=height, rx=5, fill=fill, stroke=stroke, **further)


def picture(width, height, title, elements):
    """The whole file: on paper of its own, so that it reads on a dark page too."""
    front = f'<svg xmlns="http://www.w3.org/2000/svg" viewBox="0 0 {width} {height}" width="{width}" height="{height}"'
    text = shape("", **TEXT)[1:-2]
    head = [f'{front} font-family="Helvetica, Arial, sans-serif"{text} role="img">', f"<title>{escape(title)}</title>"]
    paper = shape("rect", width=width, height=height, rx=8, fill=PAPER)
    return "\n".join([*head, paper, *elements, "</svg>", ""])


# ---- the layers


def direct(libraries):
    """For each crate the libraries that no other one of its libraries depends on."""
    under = {name: set(below(name, libraries)) for name in libraries}
    return {name: [use for use in uses if not any(use in under[other] for other in uses)] for name, uses in libraries.items()}


def rows_of(uses):
    """The row of each crate, from 0 at the bottom: as low as what it depends on lets it be; where more depend on it than it depends
    on, right below the lowest of these."""
    row = {}
    for name in uses:
        row[name] = max((row[use] + 1 for use in uses[name]), default=0)
    for name in reversed(list(uses)):
        users = [row[user] for user, its in uses.items() if name in its]
        if len(users) > len(uses[name]):
            row[name] = min(users) - 1
    return row


def chains(uses, row):
    """Each line as a list of what it goes through, from above: a crate, a bend in each row between, and a crate."""
    lines = [(name, use) for name in uses for use in uses[name]]
    return [[name, *((name, use, at) for at in range(row[name] - 1, row[use], -1)), use] for name, use in lines]


def middle(one, beside, place):
    """Where the neighbours of one are in the mean, or itself where it has none."""
    there = [place[other] for other in beside.get(one, [])]
    return sum(there) / len(there) if there else place[one]


def crossings(levels, upper):
    """How many pairs of lines cross, between neighbouring rows."""
    count = 0
    for level, over in zip(levels, levels[1:]):
        place = {one: at for at, one in enumerate(over)}
        ends = [place[user] for one in level for user in sorted(upper.get(one, []), key=place.get)]
        count += sum(left > right for at, left in enumerate(ends) for right in ends[at + 1 :])
    return count


def ordered(levels, lower, upper):
    """The rows, each in the order of the means of its neighbours, up and down by turns; of all rounds the one with the fewest
    crossings."""
    best, fewest = levels, crossings(levels, upper)
    for turn in range(ROUNDS):
        levels = list(levels)
        beside, steps = (lower, range(1, len(levels))) if turn % 2 else (upper, range(len(levels) - 2, -1, -1))
        for at in steps:
            place = {one: number for level in levels for number, one in enumerate(level)}
            levels[at] = sorted(levels[at], key=lambda one: (middle(one, beside, place), place[one]))
        count = crossings(levels, upper)
        if count < fewest:
            best, fewest = levels, count
    return best


def named_by_others():
    """For each crate what it names that is no crate of the repository, nor a part of what it names (as `regex_vm` is of `regex`)."""
    ours, found = libraries_of(), {}
    for line in (TOP / "crates.txt").read_text().splitlines():
        name, _, uses = line.partition("#")[0].partition(":")
        others = [use for use in uses.split() if use not in ours]
        found[name.strip()] = [use for use in others if not any(use.startswith(other + "_") for other in others)]
    return found


@functools.cache
def wide():
    """How wide the boxes of the crates are, so that no name leaves its own."""
    lengths = [max(len(name) * NAME, len(" ".join(others)) * BELOW) for name, others in named_by_others().items()]
    return 2 * round(max(lengths) * LETTER / 2 + 4)


def width_of(one):
    return wide() if isinstance(one, str) else BEND


def spread(level, wanted):
    """Places of the ones of a row, in its order and apart, near the wanted ones: from the left, from the right, and their mean."""
    gaps = [(width_of(one) + width_of(other)) / 2 + ACROSS for one, other in zip(level, level[1:])]
    left, right = [wanted[level[0]]], [wanted[level[-1]]]
    for one, gap in zip(level[1:], gaps):
        left.append(max(wanted[one], left[-1] + gap))
    for one, gap in zip(reversed(level[:-1]), reversed(gaps)):
        right.append(min(wanted[one], right[-1] - gap))
    return {one: (low + high) / 2 for one, low, high in zip(level, left, reversed(right))}


def places(levels, lower, upper):
    """The middle of each one, from left to right."""
    across = {}
    for level in levels:
        across.update(spread(level, {one: at * (wide() + ACROSS) for at, one in enumerate(level)}))
    for turn in range(ROUNDS):
        for level in levels if turn % 2 else reversed(levels):
            near = {one: [*lower.get(one, []), *upper.get(one, [])] for one in level}
            across.update(spread(level, {one: middle(one, near, across) for one in level}))
    least = min(across[one] - width_of(one) / 2 for one in across)
    return {one: round(at - least + MARGIN) for one, at in across.items()}


def curve(points):
    """A line through the points, upright in each."""
    drawn = "M{} {}".format(*points[0])
    for (x, y), (to_x, to_y) in zip(points, points[1:]):
        between = (y + to_y) // 2
        drawn += f"V{to_y}" if x == to_x else f"C{x} {between} {to_x} {between} {to_x} {to_y}"
    return shape("path", d=drawn)


def line_through(chain, across, height_of):
    """A line from the bottom of a crate, through its bends, to the top of another one."""
    first, *bends, last = chain
    points = [(across[first], height_of(first) + HIGH)]
    for bend in bends:
        points += [(across[bend], height_of(bend)), (across[bend], height_of(bend) + HIGH)]
    return curve([*points, (across[last], height_of(last))])


def crate(name, x, y, others, is_program):
    """A crate, with those of others that it names below its own name."""
    drawn = [box(x - wide() // 2, y, wide(), HIGH, PROGRAM if is_program else LIBRARY)]
    drawn.append(words(x, y + (15 if others else 21), name, font_size=NAME))
    if others:
        drawn.append(words(x, y + 28, " ".join(others), font_size=BELOW, fill=FAINT))
    return drawn


def layers():
    """The picture of the crates."""
    uses, others = direct(libraries_of()), named_by_others()
    row = rows_of(uses)
    lines = chains(uses, row)
    levels = [[name for name in uses if row[name] == at] for at in range(max(row.values()) + 1)]
    lower, upper = {}, {}
    for chain in lines:
        for one in chain[1:-1]:
            levels[one[2]].append(one)
        for one, under in zip(chain, chain[1:]):
            lower.setdefault(one, []).append(under)
            upper.setdefault(under, []).append(one)
    levels = ordered(levels, lower, upper)
    across = places(levels, lower, upper)

    def height_of(one):
        at = row[one] if isinstance(one, str) else one[2]
        return MARGIN + (len(levels) - 1 - at) * (HIGH + DOWN)

    used = {use for its in uses.values() for use in its}
    drawn = [shape("g", fill="none", stroke=LINE, stroke_width=1.3)[:-2] + ">"]
    drawn += [*(line_through(chain, across, height_of) for chain in lines), "</g>"]
    for name in uses:
        drawn += crate(name, across[name], height_of(name), others[name], name not in used)
    width = round(max(across[one] + width_of(one) / 2 for one in across) + MARGIN)
    return picture(width, len(levels) * (HIGH + DOWN) - DOWN + 2 * MARGIN, "The crates and what they depend on", drawn)


# ---- the history


# how far apart the texts of a history are
STRIDE = 186


def a_text(number, x, y, is_present):
    """A text of a history: the present one is the file's, kept as a tree, the others are kept as steps only."""
    if is_present:
        drawn = [box(x - 40, y, 80, 44, MARKED, stroke="#2f7d4a", stroke_width=2)]
        drawn += [words(x, y + 18, f"text {number}"), words(x, y + 34, "the file", font_size=11, fill=FAINT)]
        drawn.append(shape("path", d=f"M {x - 7} {y - 16} L {x + 7} {y - 16} L {x} {y - 4} Z", fill="#2f7d4a"))
        return [*drawn, words(x, y - 21, "cursor", font_size=11, fill="#2f7d4a")]
    drawn = [box(x - 40, y, 80, 44, PAPER, stroke_dasharray="4 3")]
    return [*drawn, words(x, y + 26, f"text {number}", fill=FAINT)]


def a_step(number, x, y, holds, is_marked):
    """A step between two texts, with the side that it holds."""
    drawn = [box(x - 34, y + 4, 68, 36, PROGRAM if is_marked else LIBRARY, stroke="#b4762a" if is_marked else LINE)]
    drawn.append(words(x, y + 19, f"step {number}", font_size=12))
    return [*drawn, words(x, y + 33, holds, font_size=9, fill=FAINT)]


def a_history(y, title, remark, texts, cursor, marked):
    """A row: its title, the texts with the steps between them, and a remark below."""
    drawn = [words(MARGIN, y, title, font_size=14, text_anchor="start", font_weight="bold")]
    top, left = y + 46, MARGIN + 44
    drawn.append(shape("path", d=f"M {left} {top + 22} H {left + (texts - 1) * STRIDE}", stroke=LINE, stroke_width=1.3))
    for number in range(texts):
        drawn += a_text(number, left + number * STRIDE, top, number == cursor)
    for number in range(1, texts):
        side = "earlier parts" if number <= cursor else "later parts"
        drawn += a_step(number, left + number * STRIDE - STRIDE // 2, top, side, number == marked)
    return [*drawn, *(words(MARGIN, top + 66 + 17 * at, line, font_size=12, fill=FAINT, text_anchor="start") for at, line in enumerate(remark))]


HISTORIES = [
    (
        "After three commands, each of which changed the file",
        [
            "Text 0 is the file as it was. undo goes one text back, redo one forward, byte for byte; undo 3 leads to text 0.",
            "Only the text at the cursor is kept whole, as a tree. A step holds the parts in which its two texts differ.",
        ],
        (4, 3, None),
    ),
    (
        "After undo",
        [
            "The file is text 2 again, byte for byte, and redo leads to text 3. The parts that step 3 held and those at",
            "their places in the tree have changed sides, so step 3 holds what redo needs. The next undo is by step 2.",
        ],
        (4, 2, 3),
    ),
    (
        "After another command",
        [
            "The texts after the cursor are gone, so redo has nothing to go to. A command that prints, or changes nothing,",
            "adds no text. The new step holds the parts of text 2 that differ in the new text 3.",
        ],
        (4, 3, 3),
    ),
]


def history():
    """The picture of a history, before and after an undo."""
    drawn = []
    for at, (title, remark, (texts, cursor, marked)) in enumerate(HISTORIES):
        drawn += a_history(MARGIN + 14 + at * 172, title, remark, texts, cursor, marked)
    return picture(760, 172 * len(HISTORIES) + MARGIN, "A history of texts, its cursor, its tree and its steps", drawn)


# ---- the terminal


# the chapter of README whose first example is shown
SHOWN = "## Undo across runs"
SCREEN, FRAME, LIGHT, PROMPT, TYPED = "#1e2228", "#3a414b", "#c9d1d9", "#7fc98f", "#ffffff"
# how wide a character of the terminal's font is, and how far apart lines are
ADVANCE, PITCH = 7.83, 19
MONOSPACE = "DejaVu Sans Mono, Menlo, Consolas, monospace"


def example():
    """The lines of that example, without their margin."""
    chapter = (TOP / "README.md").read_text().partition(f"{SHOWN}\n")[2]
    block = re.search(r"(?m)(?:^ {4}.*\n)+", chapter)[0]
    return [line[4:] for line in block.splitlines()]


def typed(line):
    """A line of the terminal as pieces, each with its colour: a command has a prompt in front of it."""
    return [("$", PROMPT), (line[1:], TYPED)] if line.startswith("$ ") else [(line, LIGHT)]


def screen_line(x, y, line):
    """A line of characters that are equally wide. Spaces at the beginning of a piece are room, and those within it such as no reader
    of XML joins."""
    drawn, column = [], 0
    for piece, colour in typed(line):
        text = piece.lstrip(" ")
        left = x + (column + len(piece) - len(text)) * ADVANCE
        drawn.append(words(round(left, 1), y, text.replace(" ", "\u00a0"), fill=colour, text_anchor="start", font_family=MONOSPACE))
        column += len(piece)
    return drawn


def terminal():
    """The picture of a terminal: its frame with three buttons, and the lines of the example."""
    lines = example()
    width, height = round(max(map(len, lines)) * ADVANCE) + 2 * MARGIN, len(lines) * PITCH + 2 * MARGIN + 30
    drawn = [box(6, 6, width - 12, height - 12, SCREEN, stroke=FRAME), box(6, 6, width - 12, 26, FRAME, stroke=FRAME)]
    drawn += [shape("circle", cx=24 + 18 * at, cy=19, r=5, fill=colour) for at, colour in enumerate(("#e0655f", "#e3b54c", "#6fbf73"))]
    for number, line in enumerate(lines):
        drawn += screen_line(MARGIN, 32 + MARGIN + number * PITCH, line)
    return picture(width, height, "An edit, listed and taken back in a later run, in a terminal", drawn)


PICTURES = {"docs/internals/layers.svg": layers, "docs/history.svg": history, "docs/terminal.svg": terminal}


def main(checks):
    """Writes the pictures, or looks whether they are as they would be written."""
    wrong = False
    for name, draw in PICTURES.items():
        drawn, file = draw(), TOP / name
        ElementTree.fromstring(drawn)  # what is no XML is not written
        if not checks:
            file.write_text(drawn)
        elif not file.exists() or file.read_text() != drawn:
            print(f"{name} is not up to date: call tools/pictures.py")
            wrong = True
    return 1 if wrong else 0


if __name__ == "__main__":
    sys.exit(main(sys.argv[1:] == ["--check"]))
