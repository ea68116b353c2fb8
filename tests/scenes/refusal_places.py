#!/usr/bin/env python3
"""Looks where, and as what, a text is refused that is not accepted: BUILD files by both programs, .bzl files by buildifier.

No clause speaks of most of these places, so they are computed here, by lib/starlark.py, which has the grammar in a form of its own and reads no
program's answer. Texts by chance, of many lines, with functions, branches, loops and their suites, are accepted. One of them is then
changed: a token is put in or comes in the place of another one, a line begins at another indent, the text breaks off, or a character or a string comes
with which no token begins. What is refused first of that is reported, and where:

- Unexpected at the first token with which no accepted row of tokens goes on, or at the end;
- Indented at the first token of a line at whose indent no statement may begin; in a BUILD file at one with any indent;
- BadCharacter and OpenString at what is no token.

The places of TooDeep are rows of crates/cases: those of the first token of the first node that is nested too deep.

    tests/scenes/refusal_places.py BUILDOZER BUILDIFIER
"""

import pathlib
import random
import re

from lib.folders import new_folder
from lib.runs import ended
from lib.scenes import WHOLE, Scenes
from lib.starlark import KEYWORDS, WRONG_CHARACTERS, File, Piece, first_fault, place_of, spelled

# how many texts of each kind are made as a part of the gate, and how many times each is changed
TEXTS, CHANGES = (1000, 20) if WHOLE else (25, 6)
# tokens that are put where they may not come, or may
WRONG = [*")]},:.=;([{*-", "+=", "==", "**", "x", '"s"', "1", "\n", *KEYWORDS]
INDENTS = ["", " ", "  ", "    ", "\t", "     "]
PLACE = re.compile(r"^t(\d+)(?:/BUILD)?:(?:(\d+):(\d+):)? (\w+)", re.MULTILINE)
# how many texts one run reads
AT_ONCE = 500


def by_buildifier(program, kind, texts):
    """What is reported of each text that is refused."""
    with new_folder() as folder:
        for number, text in enumerate(texts):
            (pathlib.Path(folder) / f"t{number}").write_text(text, encoding="utf-8", newline="")
        return ended([program, "--mode=check", f"--type={kind}", *[f"t{number}" for number in range(len(texts))]], folder).err


def by_buildozer(program, kind, texts):
    """The same of BUILD files, of which no command changes anything."""
    with new_folder() as folder:
        for number, text in enumerate(texts):
            package = pathlib.Path(folder) / f"t{number}"
            package.mkdir()
            (package / "BUILD").write_text(text, encoding="utf-8", newline="")
        return ended([program, "-k", "fix unusedLoads", "--stdout", *[f"//t{number}:all" for number in range(len(texts))]], folder).err


def faults(run, program, kind, texts):
    """The fault of each text, as its name, line and column; None of one that is accepted."""
    found = [None] * len(texts)
    for since in range(0, len(texts), AT_ONCE):
        for number, line, column, name in PLACE.findall(run(program, kind, texts[since : since + AT_ONCE]).decode()):
            found[since + int(number)] = (name, int(line or 0), int(column or 0))
    return found


def with_another_indent(pieces, chance):
    """These pieces, of which one that begins a line has another indent."""
    starts = [at for at, piece in enumerate(pieces) if at == 0 or pieces[at - 1].token == "\n"]
    at = chance.choice(starts)
    gap = pieces[at].gap.rstrip(" \t") + chance.choice(INDENTS)
    return [*pieces[:at], Piece(pieces[at].token, gap), *pieces[at + 1 :]]


def changed(pieces, chance):
    """These pieces, changed in one place."""
    at = chance.randrange(len(pieces))
    piece, following = pieces[at], pieces[at + 1 :]
    how = chance.choice(["put in", "put in", "exchanged", "exchanged", "broken off", "indented", "no token"])
    if how == "indented":
        return with_another_indent(pieces, chance)
    if how == "broken off":
        return pieces[:at]
    if how == "no token":
        wrong = chance.choice(list(WRONG_CHARACTERS))
        # a string that is open has the rest of the text
        rest = [Piece(piece.token, " "), *following] if len(wrong) == 1 else []
        return [*pieces[:at], Piece(wrong, piece.gap), *rest]
    wrong = Piece(chance.choice(WRONG), piece.gap)
    if how == "exchanged" and piece.token != "\n":
        return [*pieces[:at], wrong, *following]
    return [*pieces[:at], wrong, Piece(piece.token, " "), *following]


def texts_of(kind):
    """Texts by chance, and each changed some times, as pieces."""
    for seed in range(TEXTS):
        pieces = File(kind, seed).made()
        yield pieces
        chance = random.Random(f"{kind} {seed}")
        for _ in range(CHANGES):
            yield changed(pieces, chance)


def wrong_places(kind, readers):
    """What is wrong of the places that these programs report of the texts of a kind."""
    cases = list(texts_of(kind))
    texts = [spelled(pieces) for pieces in cases]
    meant = []
    for pieces in cases:
        fault = first_fault(kind, pieces)
        meant.append(fault and (fault[0], *place_of(pieces, fault[1])))
    wrong = []
    for run, program in readers:
        found = faults(run, program, kind, texts)
        wrong += [f"{text!r} is reported by {run.__name__} as {is_}, and not {wanted}" for text, is_, wanted in zip(texts, found, meant) if is_ != wanted]
    seen = {fault and fault[0] for fault in meant}
    missing = {None, "Unexpected", "Indented", "BadCharacter", "OpenString"} - seen
    return wrong + [f"no text of the kind {kind} is {name}" for name in missing]


def places_in_build_files(programs):
    return wrong_places("build", list(zip([by_buildozer, by_buildifier], programs)))


def places_in_bzl_files(programs):
    return wrong_places("bzl", [(by_buildifier, programs[1])])


SCENES = Scenes(__file__, {"places in BUILD files": places_in_build_files, "places in .bzl files": places_in_bzl_files})

if __name__ == "__main__":
    SCENES.main()
