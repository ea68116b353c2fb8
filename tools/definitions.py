#!/usr/bin/env python3
"""Writes what the pages have of the definitions in the sources: in docs/internals/DEFINITIONS.md how much there is to read, and the index
of those that contracts cite; on the page of each crate, in a line of its own, which files of its specs/ are for private functions alone.

    tools/definitions.py            writes these anew; the two parts of docs/internals/DEFINITIONS.md are each between two lines of marks
    tools/definitions.py NAME..     prints the definitions of a crate, or those of a name: each with its file and the comment above it

A definition is cited where a line `ghost use` of crates/*/src brings it in from specs/. What a reader has to trust is what the contracts of
public calls depend on (tools/trusted.py); what else is cited says what private functions compute.
"""
import functools
import re
import sys

from trusted import CRATES, TOP, USE, counts, definitions, sources, trusted

PAGE = TOP / "docs" / "internals" / "DEFINITIONS.md"
CRATES_PAGE = "crates/{}/README.md"
# which files of specs/ no contract of a public call depends on, as the page of a crate says it; and what comes after it there
PRIVATE = re.compile(r"(?m)^For private functions alone: .*\n\n")
PROVED = "## Proved\n"
NAME = re.compile(r"[^\W\d][\w']*")
# forms that the toolchain makes of the code, which nobody wrote
MADE = re.compile(r"\.(declared|formers|contracts)\.")


def page_of(crate):
    return f"[{crate}](../../{CRATES_PAGE.format(crate)})"


@functools.cache
def cited():
    """The definitions that contracts cite, for each crate by file and name."""
    found = {crate: {} for crate in CRATES}
    for _, file in sources():
        for line in file.read_text().splitlines():
            use = USE.match(line) if "ghost use Rattle.bz_" in line else None
            if use and ".specs." in use[1] and not MADE.search(f"{use[1]}."):
                for word in (use[2] or "").split(","):
                    name = word.strip().partition(" as ")[0]
                    key = definitions().owner((use[1], name))
                    if key and NAME.fullmatch(name):
                        found[key[0].split(".")[0]][definitions().files[key].stem, name] = key
    return {crate: dict(sorted(rows.items())) for crate, rows in found.items()}


def table(header, rows):
    lines = [header, ["---"] * len(header), *rows]
    return "".join(f"| {' | '.join(line)} |\n" for line in lines)


def sizes():
    header = ["Crate", "Lines", "Public calls", "Surface", "Both engines"]
    return table(header, [[page_of(crate) if crate in CRATES else crate, *(f"{number:,}" for number in row)] for crate, row in counts().items()])


def names_by_file(crate, keep):
    """The names of the definitions of a crate that are cited and kept, by the files in which they are."""
    files = {}
    for (stem, name), key in cited()[crate].items():
        if keep(key):
            files.setdefault(stem, []).append(f"`{name}`")
    return "; ".join(f"{stem}: {' '.join(names)}" for stem, names in files.items())


def index():
    """A row for each crate: the definitions that a reader trusts, and those that only private functions are compared with."""
    seen = trusted()
    rows = [[page_of(crate), names_by_file(crate, seen.__contains__), names_by_file(crate, lambda key: key not in seen)] for crate in CRATES]
    return table(["Crate", "What contracts of public calls depend on", "Cited by private functions alone"], [row for row in rows if any(row[1:])])


def private_files(crate):
    """The files of specs/ of a crate on which no contract of a public call depends."""
    files = {}
    for key, file in definitions().files.items():
        if key[0].split(".")[0] == crate and not MADE.search(f"{key[0]}."):
            files.setdefault(file.stem, []).append(key in trusted())
    return sorted(stem for stem, seen in files.items() if not any(seen))


def with_private_files(crate, page):
    """The text of a crate's page with its line on these files as it has to be."""
    files = private_files(crate)
    line = f"For private functions alone: {', '.join(files)}.\n\n" if files else ""
    return PRIVATE.sub(line, page, 1) if PRIVATE.search(page) else page.replace(PROVED, line + PROVED, 1)


PARTS = {"sizes": sizes, "index": index}


def renewed(page):
    """The text of a page with each part made anew. Between the marks is what the part gives, and nothing else."""
    for name, part in PARTS.items():
        first, last = f"<!-- tools/definitions.py: {name} -->\n", f"<!-- end of {name} -->"
        before, begin, rest = page.partition(first)
        _, end, after = rest.partition(last)
        if not begin or not end:
            raise SystemExit(f"{PAGE.name} has no marks for its {name}")
        page = f"{before}{first}\n{part()}\n{last}{after}"
    return page


def said(word):
    """The definitions of a crate, or those of a name, each with its file and the comment above it."""
    for key, (text, *_) in definitions().texts.items():
        if word in (key[0].split(".")[0], key[1]):
            file = definitions().files[key]
            above, comment = file.read_text().partition(f"\n{text.splitlines()[0]}")[0].splitlines(), []
            while above and above[-1].strip().startswith("--"):
                comment.insert(0, above.pop().strip().lstrip("- "))
            yield f"{key[1]} ({file.relative_to(TOP)}): {' '.join(comment)}".rstrip(": ")


def main():
    if len(sys.argv) > 1:
        for word in sys.argv[1:]:
            print(*said(word), sep="\n")
    else:
        PAGE.write_text(renewed(PAGE.read_text()))
        for crate in CRATES:
            page = TOP / CRATES_PAGE.format(crate)
            page.write_text(with_private_files(crate, page.read_text()))


if __name__ == "__main__":
    main()
