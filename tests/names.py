#!/usr/bin/env python3
"""One name, one meaning: which public names more than one crate defines; the words that comments and pages no longer use; and whether
each edit fits the sources.

    tests/names.py         compares them with tests/names.txt, which lists those that are accepted: no further name may get a second
                           home, and no name stays there that has one home again; and looks for words that the field has others for
    tests/names.py --write writes that list anew

Read are the definitions of specs/ and the public types, calls and constants of src/. Left out are names that Rust and these crates give
to many (new, copy, len), those of programs and of what tests depend on, which no contract cites, and the terms that worked rows are made of,
which other worked rows alone cite.
"""
import collections
import pathlib
import re
import sys

import edits
from lib.scenes import TOP, Scenes, named

sys.path.append(str(TOP / "tools"))
import trusted

ACCEPTED = pathlib.Path(__file__).with_suffix(".txt")
# names that one habit gives to many
HABIT = {"new", "copy", "equals", "number", "of", "read", "len", "get", "push", "as_slice", "open", "name", "is_empty", "mod"}
# crates whose names no contract cites
ASIDE = {"sheets", "cases", "runs", "rows", "buildozer", "buildifier"}
# words that the field has others for (CONTRIBUTING.md, 'Words'), and code within a line; Told, Asked, Drawn and Standing are names of files
OLD_WORDS = re.compile(
    r"\b(?:[Bb]ehind|[Ss]o many|[Ll]et go|told|[Tt]ells?|[Tt]elling|asked|[Aa]sks?|[Ss]tands?|[Ss]tood|standing|[Ll]ent|[Ww]anting|drawn|[Dd]raws?)\b"
)
CODE_SPAN = re.compile(r"`[^`]*`")
# how many lines of definitions the contracts of the surface may reach: what they do now and few more, as each new command brings some
MOST_LINES = 7_290
# the file of worked rows
ROWS = "Worked.antt"
DEFINITION = re.compile(r"^(?:abbrev |unfoldable )*pub (?:record |data |abbrev )?([A-Za-z_]\w*)\s*[:(]|^(?:abbrev|unfoldable) pub ([A-Za-z_]\w*) *:")
CODE = re.compile(r"^\s*pub (?:const )?(?:struct|enum|trait|fn|const) ([A-Za-z_]\w*)")


def homes():
    """For each public name the crates that define it."""
    found = collections.defaultdict(set)
    for pattern, files in ((DEFINITION, "*/specs/**/*.antt"), (CODE, "*/src/**/*.rt")):
        for file in (TOP / "crates").glob(files):
            crate = file.relative_to(TOP / "crates").parts[0]
            if crate not in ASIDE and file.name != ROWS:
                names = [m[1] or m[pattern.groups] for m in map(pattern.match, file.read_text().splitlines()) if m]
                for name in set(names) - HABIT:
                    found[name].add(crate)
    return {name: " ".join(sorted(crates)) for name, crates in sorted(found.items()) if len(crates) > 1}


def accepted():
    return dict(line.split(": ") for line in ACCEPTED.read_text().splitlines())


def each_public_name_has_one_home(_programs):
    now, before = homes(), accepted()
    more = [f"{name} is defined in {crates}" for name, crates in now.items() if not set(crates.split()) <= set(before.get(name, "").split())]
    fewer = [f"{name} has fewer homes than tests/names.txt says" for name, crates in before.items() if set(crates.split()) - set(now.get(name, "").split())]
    return more + fewer


def comments_of(file):
    return [line for line in file.read_text().splitlines() if line.lstrip().startswith(("//", "--"))]


def words_are_those_of_the_field(_programs):
    """No comment of src/, specs/ and proofs/, and no page, uses a word of OLD_WORDS outside of code."""
    sources = [file for kind in ("src/**/*.rt", "specs/**/*.antt", "proofs/**/*.antt") for file in (TOP / "crates").glob(f"*/{kind}")]
    lines = [(file, line) for file in sources for line in comments_of(file)]
    pages = [*TOP.glob("*.md"), *(TOP / "docs").rglob("*.md"), *(TOP / "crates").glob("*/README.md")]
    lines += [(file, line) for file in pages for line in file.read_text().splitlines() if not line.startswith("    ")]
    found = [(file, word) for file, line in lines for word in OLD_WORDS.findall(CODE_SPAN.sub("", line))]
    return [f"{file.relative_to(TOP)} says '{word}'" for file, word in found]


def what_is_trusted_is_in_its_place(_programs):
    """specs/ has what contracts of public calls reach, specs/private/ what none does, and the surface reaches few lines of it."""
    lines = trusted.counts()["all"][2]
    return trusted.misplaced() + [f"the surface reaches {lines:,} lines of definitions, {MOST_LINES:,} at most are wanted"] * (lines > MOST_LINES)


def each_edit_applies(_programs):
    """Each edit, those of the gate among them, fits the sources: who rewrites a function takes its wrong bodies along."""
    faults = []
    for edit in sorted([*TOP.glob("edits/*/*.edit"), *TOP.glob("crates/*/must-fail/*.edit")]):
        crate = edit.relative_to(TOP).parts[1]
        try:
            edits.apply(edit, TOP / "crates" / crate)
        except (edits.NotApplied, OSError) as fault:
            faults.append(f"{edit.relative_to(TOP)}: {fault}")
    return faults


SCENES = Scenes(
    __file__, named(each_public_name_has_one_home, words_are_those_of_the_field, what_is_trusted_is_in_its_place, each_edit_applies)
)

if __name__ == "__main__":
    if sys.argv[1:] == ["--write"]:
        ACCEPTED.write_text("".join(f"{name}: {crates}\n" for name, crates in homes().items()))
    else:
        SCENES.main()
