#!/usr/bin/env python3
"""Runs the examples of README.md and of the other pages, and compares the tables of the pages of reference, the picture of the crates, the calls
of a command, the counts of the gate and the index of definitions with the code. README.md must be short and have a link to each page, and
docs/internals/PROVED.md one to the page of each crate; docs/COMING.md has a row for each command and option of bazelbuild's tools; links lead
somewhere, and files, crates and names of the sources that pages name are there.

The pages are README.md, those beside it, those of docs/ and docs/internals/, of contrib/ and of each crate. A block of code in which lines
begin with `$` is an example: its commands run one after the other, in a folder of the block's own that is empty at first, with both
programs on the PATH. What a command leaves on its two outputs must be what is below it, byte for byte, up to the next command. Each block runs
in sh, and once more in each of bash, zsh, dash and fish that is there; in fish with `$status` for `$?`, but for loops, as the pages say.
A block that calls git is reported as not run where there is no git. The commands in the tables need only be such as the program takes.

    tests/scenes/readme.py BUILDOZER BUILDIFIER
"""
import functools
import os
import pathlib
import re
import shutil
import sys

from lib.pages import (
    BLOCK, CODE, COMMAND, CRATE_PAGES, CRATES, INTERNALS, PAGES, README, definition, different_from_code, links_of, named_examples, on_path,
    refusals_of_code, rows_of, texts_in,
)  # fmt: skip
from lib.scenes import PROCESSORS, TOP, Scenes, named

sys.path.append(str(TOP / "tools"))
import counts
import definitions
from crates import libraries_of

# how many lines README has at most, and how many bytes the page of a crate
LINES, BYTES = 175, 16_500
# the sections of the page of a crate, of which it has some, in this order
SECTIONS = ["Definitions", "Proved", "Only tested", "Neither proved nor tested", "Decisions"]
GIT = re.compile(r"^\$ (?:.*[ ;|&(])?git ", re.MULTILINE)
# the shells in which the examples run beside sh, each without a file of settings
SHELLS = {"bash": ["bash", "--norc"], "zsh": ["zsh", "-f"], "dash": ["dash"], "fish": ["fish", "--no-config"]}
LOOP = re.compile(r"^\$ .*; do ", re.MULTILINE)
# the path of a file or folder, of the repository or of a crate; one with a word in capitals is a form
OF_TOP, OF_CRATES = "docs|tools|tests|contrib|crates|bench|edits|examples|\\.ci", "src|specs|proofs|must-fail"
PATH = re.compile(rf"(?<![\w./-])(?:{OF_TOP}|{OF_CRATES})/[\w./-]*\w(?![\w*{{-])|(?<![\w./-])[A-Z]+\.md\b")
FORM = re.compile(r"(?:^|/)[A-Z_]+(?:/|\.edit|$)|/out/")
# pages that name what is in the sources, a name as these have it, and names that are none of theirs: Rattle's own, a tool's, a slip's
OF_SOURCES = ["PROMISES.md", *(f"internals/{page}.md" for page in ("ARCHITECTURE", "DECISIONS", "DEFINITIONS", "PROOFS", "PROVED"))]
WORD = re.compile(r"[A-Za-z_][\w-]*")
NAMES_OF_OTHERS = {"Tie", "is-1", "loop-X-preserved", "grep", "make", "flock", "chekc", "st", "b1", "o8"}
# the commands and options of bazelbuild's READMEs, by the section of docs/COMING.md whose table has a row for each
THEIRS = {
    "buildozer: commands": """add comment copy copy_no_overwrite delete dict_add dict_list_add dict_remove dict_replace_if_equal dict_set fix
        format move new new_load print print_comment remove remove_comment remove_if_equal rename replace replace_load set set_if_absent
        set_select substitute substitute_load use_repo_add use_repo_remove""",
    "buildozer: options": """-P -add_tables -allowsort -buildifier -buildifier_disable -delete_with_comments -edit-variables -eol-comments -f -k
        -numio -output_json -output_proto -quiet -root_dir -shorten_labels -stdout -tables -types -version""",
    "buildifier: options": """- -add_tables -allowsort -buildifier_disable -config -d -diff_command -format -lint -mode=check -mode=diff -mode=fix
        -mode=print_if_changed -multi_diff -path -r -tables -type=auto -type=build -type=bzl -type=default -type=module -type=workspace -v
        -version -warnings""",
}
# a function, by its indent, with what is between its name and the end of its body; and a line of a picture of calls, in which it may be named
# with its type and its crate
FUNCTION = re.compile(r"(?ms)^( *)(?:pub(?:\(\w+\))? )?fn (\w+)\b(.*?)^\1}$")
CALLED = re.compile(r"( +)(?:\w+::)?(\w+)(?: \((\w+)\))?")
# a row of a crate's definitions: names, the files of specs/ that have them
OF_SPECS = re.compile(r"(?m)^\| ([^|]*`[^|]*) \| ([A-Z]\w*(?:, [A-Z]\w*)*) \|")
# what a line of specs/ defines: a definition, a field or constructors, by the names before what it takes or its type
DEFINES = re.compile(r"(?m)^(?! *--) *((?:(?!= )[^\s:({]+ )+)[:({]")
# what contracts cite of the definitions; these have no names that the toolchain made
CITED = re.compile(r"ghost use Rattle\.bz_[a-z]+\.specs\.([\w.]+)\.\{([^}]*)\}")


# ---- what the code says


def command_examples():
    return [command.replace("\\|", "|") for row in rows_of("Command") for command in CODE.findall(row[-1])]


def forms_of_code():
    """The forms of commands, as hints print them."""
    tables = definition("bz_command_syntax/specs/Commands.antt", "commands") + definition("bz_command_line/specs/Hints.antt", "verb_forms")
    return sorted(re.findall(r"'([^']+)'", tables))


def attributes_of_code():
    """The tables of attributes; beside the sorted ones are the kind and the attribute that are left out."""
    tables = "bz_label/specs/Tables.antt"
    ordered, further = texts_in(tables, "sorted_attributes"), texts_in(tables, "further_lists")
    others = texts_in(tables, "is_label_attribute attribute")
    return {
        "Sorted": (ordered, sorted(texts_in(tables, "is_sorted kind attribute"))),
        "Labels": ([name for name in ordered if name not in others], []),
        "Lists": (ordered + further, []),
        "First": (texts_in(tables, "first_arguments"), []),
        "Last": (texts_in(tables, "last_arguments"), []),
    }


# ---- scenes


def an_example(name, block, shell="sh"):
    words = SHELLS.get(shell, [shell])

    def wrong(place):
        if GIT.search(block) and not shutil.which("git"):
            SCENES.say(f"{name} was not run: there is no git")
            return []
        front, *pieces = COMMAND.split(block)
        faults = [f"{front!r} is before the first command"] if front else []
        for command, wanted in zip(pieces[::2], pieces[1::2]):
            left = place.run(command.replace("$?", "$status") if shell == "fish" else command, shell=words)[1]
            if left != wanted:
                faults.append(f"{command}: {left!r}, and not {wanted!r}")
        return faults

    return wrong


def examples_in_shells():
    """Each example in each further shell that is there and is not sh itself, but for loops in fish, which have another form there."""
    found = {shell: os.path.realpath(shutil.which(shell) or "") for shell in ["sh", *SHELLS]}
    shells = [shell for shell in SHELLS if shutil.which(shell) and found[shell] != found["sh"]]
    blocks = {(name, shell): block for name, block in named_examples().items() for shell in shells if shell != "fish" or not LOOP.search(block)}
    return {f"{name} in {shell}": an_example(name, block, shell) for (name, shell), block in blocks.items()}


def shells_are_there(place):
    """Says which shell is not there."""
    for shell in SHELLS:
        if not shutil.which(shell):
            SCENES.say(f"no example was run in {shell}, which is not there")
    return []


def refusals(place):
    rows = rows_of("Number")
    told = [(int(row[0]), name) for row in rows for name in CODE.findall(row[1])]
    return different_from_code("refusals", told, refusals_of_code()) + [f"{row[1]}: nothing is said of it" for row in rows if not all(row)]


def attributes(place):
    """Each row has the names of the code's table, in its order; in the first cell are those that are left out."""
    rows = {row[0].split()[0].rstrip(":"): row for row in rows_of("Attributes")}
    faults = different_from_code("tables of attributes", sorted(rows), sorted(attributes_of_code()))
    for name, (table, left_out) in attributes_of_code().items():
        row = rows.get(name, ["", ""])
        faults += different_from_code(name, CODE.findall(row[1]), table)
        if left_out != sorted(CODE.findall(row[0])):
            faults.append(f"{name}: {row[0]}, where {left_out} is left out")
    return faults


def commands(place):
    """Each command has a row, and no other, with its forms; these begin with its name."""
    forms = sorted({form for row in rows_of("Command") for form in CODE.findall(row[0])})
    told = {form.split()[0] for form in forms}
    known = texts_in("bz_command_syntax/specs/Commands.antt", "commands") + texts_in("bz_command_line/specs/Operands.antt", r"file_verb_in \(.*")
    return different_from_code("commands", sorted(told), sorted(set(known))) + different_from_code("forms of commands", forms, forms_of_code())


def examples_of_commands(place):
    """Each example in the tables is taken as a command, though it may be refused on this rule."""
    faults = [] if command_examples() else ["there are no examples of commands"]
    for command in command_examples():
        status, left = place.run(["buildozer", "--", command, "-:x"], b'f(name = "x")\n')
        refused = left.startswith(f"buildozer: <stdin>: {command}: ")
        if status not in (0, 3) and not (status == 2 and refused):
            faults.append(f"{command}: status {status}, {left!r}")
    return faults


def rows_for_theirs(place):
    """docs/COMING.md has a row for each command and option of bazelbuild's tools, in the first cell of which it is."""
    sections = dict(re.findall(r"(?ms)^## (.*?)\n(.*?)(?=^## |\Z)", (TOP / "docs" / "COMING.md").read_text()))
    wrong = []
    for section, names in THEIRS.items():
        cells = " ".join(re.findall(r"(?m)^\| (.*?) \|", sections[section]))
        known = {word for code in CODE.findall(cells) for word in [code, code.partition("=")[0], *code.split()]}
        wrong += [f"docs/COMING.md, {section}: there is no row for {name}" for name in names.split() if name not in known]
    return wrong


def layers(place):
    """Each crate is once in the picture of the layers, and what it depends on is in lines below its own."""
    rows = [line.partition("#")[0].partition(":") for line in (TOP / "crates.txt").read_text().splitlines()]
    uses = {name.strip(): below.split() for name, _, below in rows if name.strip()}
    picture = BLOCK.search((INTERNALS / "ARCHITECTURE.md").read_text())[0]
    found = [(word, at) for at, line in enumerate(picture.splitlines()) for word in re.findall(r"\w+", line) if word in uses]
    line_of = dict(found)
    pairs = [(crate, below) for crate, names in uses.items() for below in names if below in uses]
    wrong = [f"{crate} depends on {below}" for crate, below in pairs if line_of.get(below, -1) <= line_of.get(crate, -1)]
    return different_from_code("crates", sorted(word for word, _ in found), sorted(uses)) + wrong


def libraries_are_used(place):
    """Each library that a crate's line in crates.txt names is named in its sources too, but for the parts of one (as `regex_vm` is of `regex`)."""
    names, wrong = names_in_sources(), []
    for line in (TOP / "crates.txt").read_text().splitlines():
        crate, _, uses = line.partition("#")[0].partition(":")
        own = [use for use in uses.split() if not any(use.startswith(f"{other}_") for other in uses.split())]
        wrong += [f"{crate} does not use {use}" for use in own if use not in names[crate]]
    return wrong


def libraries_of_the_table(place):
    """In the table of docs/internals/ARCHITECTURE.md each crate depends on libraries of its line in crates.txt, and these bring in all others of it."""
    page, wrong = (INTERNALS / "ARCHITECTURE.md").read_text(), []
    uses = {name.strip(): below.split() for name, _, below in (line.partition("#")[0].partition(":") for line in (TOP / "crates.txt").read_text().splitlines())}
    rows = dict(re.findall(r"(?m)^\| (\w+) \| [^|]* \| ([^|]*) \| [^|]* \|$", page))
    for crate in set(rows) & set(uses):
        reached, pending = set(), [use for use in re.findall(r"\w+", rows[crate]) if use != "std"]
        wrong += [f"docs/internals/ARCHITECTURE.md: {crate} does not use {use}" for use in pending if use not in uses[crate]]
        while pending:
            use = pending.pop()
            pending += [] if use in reached else uses.get(use, [])
            reached.add(use)
        parts = [use for use in uses[crate] if any(use.startswith(f"{other}_") for other in uses[crate])]
        wrong += [f"docs/internals/ARCHITECTURE.md: {crate} uses {use}, too" for use in uses[crate] if use not in {"core", *reached, *parts}]
    return wrong if rows else ["no crate has a row"]


def rows_of_the_gate(place):
    """Each crate has one row in the table of docs/internals/GATE.md, and no other row is there."""
    table = re.search(r"(?m)^\| Crate \| Functions \|.*\n\|[-|]+\|\n((?:\|.*\n)+)", (INTERNALS / "GATE.md").read_text())
    return different_from_code("rows of docs/internals/GATE.md", sorted(re.findall(r"(?m)^\| (\w+) \|", table[1])), sorted(libraries_of()))


def pages_are_linked(place):
    """README has a link to each page and picture, the index to that of each crate, and every link leads to a file."""
    index = INTERNALS / "PROVED.md"
    owed = {README: {*PAGES, *TOP.glob("docs/**/*.svg")} - {README, *CRATE_PAGES}, index: {CRATES / crate / "README.md" for crate in libraries_of()}}
    lost = [f"{page.name} has no link to {other.relative_to(TOP)}" for page, others in owed.items() for other in sorted(others - links_of(page))]
    return lost + [f"{page.relative_to(TOP)} links to {file}" for page in PAGES for file in sorted(links_of(page)) if not file.exists()]


def readme_is_short(place):
    count = len(README.read_text().splitlines())
    return [f"README.md has {count} lines"] * (count > LINES)


def pages_of_crates_have_their_form(place):
    """Each has the name of its crate, these sections alone, in their order, and is not long."""
    wrong = []
    for page in CRATE_PAGES:
        text = page.read_text()
        title, *found = re.findall(r"(?m)^##? (.*)$", text)
        has_form = title == page.parent.name and found == [name for name in SECTIONS if name in found]
        wrong += [f"{page.relative_to(TOP)} has the sections {title}, {found}"] * (not has_form)
        wrong += [f"{page.relative_to(TOP)} has {len(text.encode())} bytes"] * (len(text.encode()) > BYTES)
    return wrong


def files_are_there(place):
    """Each file that a page names is there, from the top of the repository, from docs/ or docs/internals/, or in a crate, on the page of a
    crate in that one or one that the page names; that of a module may lack `.antt`."""
    wrong = []
    for page in PAGES:
        text = page.read_text()
        own = [CRATES / name for name in re.findall(r"\bbz_\w+", text)] if page in CRATE_PAGES else CRATES.iterdir()
        places = [TOP, TOP / "docs", INTERNALS, page.parent, *own]
        named = {path for path in PATH.findall(text) if not FORM.search(path)}
        lost = [path for path in sorted(named) if not any((place / f"{path}{end}").exists() for place in places for end in ("", ".antt"))]
        wrong += [f"{page.relative_to(TOP)} names {path}" for path in lost]
    return wrong


def crates_are_there(place):
    """Each crate that a page names is there."""
    there = {crate.name for crate in CRATES.iterdir()}
    named = {page: set(re.findall(r"\bbz_\w+", page.read_text())) for page in PAGES}
    return [f"{page.relative_to(TOP)} names {name}" for page in PAGES for name in sorted(named[page] - there)]


def names_in_sources():
    """The names in the sources of each crate, of the places in which they count on its page: in it, in a crate below, or in one that the page
    names."""
    files = {crate: CRATES.glob(f"{crate}/*/**/*.*t") for crate in libraries_of()}
    read = {crate: [file.read_text() for file in found if file.suffix in (".rt", ".antt") and "/out/" not in str(file)] for crate, found in files.items()}
    return {crate: {word for text in texts for word in WORD.findall(text)} for crate, texts in read.items()}


def names_are_there(place):
    """Each name that these pages have between marks of code, such as that of a clause, is in the sources, but for those of Rattle and
    of tools; on the page of a crate, in its own, in those of a crate below or of one that the page names."""
    names, below, wrong = names_in_sources(), libraries_of(), []
    for page in [*(TOP / "docs" / page for page in OF_SOURCES), *CRATE_PAGES]:
        text = page.read_text()
        crates = {page.parent.name, *below[page.parent.name], *re.findall(r"\w+", text)} & set(names) if page in CRATE_PAGES else names
        known = NAMES_OF_OTHERS.union(*(names[crate] for crate in crates))
        named = {code for code in CODE.findall(text) if WORD.fullmatch(code) and not code.isupper()}
        wrong += [f"{page.relative_to(TOP)} names {name}" for name in sorted(named - known)]
    return wrong


def definitions_are_there(place):
    """Each name in a row of the definitions of a crate's page is defined in one of the files of specs/, or of specs/private/, that the row
    names."""
    wrong = []
    for page in CRATE_PAGES:
        for names, files in OF_SPECS.findall(page.read_text()):
            specs = page.parent / "specs"
            found = {name: [file for file in (specs / f"{name}.antt", specs / "private" / f"{name}.antt") if file.exists()] for name in files.split(", ")}
            words = {word for both in found.values() for file in both for line in DEFINES.findall(file.read_text()) for word in line.split()}
            lost = [name for name, both in found.items() if not both] + sorted(set(CODE.findall(names)) - words)
            wrong += [f"{page.relative_to(TOP)}: {name} is not in {files}" for name in lost]
    return wrong


def made_of_definitions(place):
    """What the pages have of the definitions in the sources is what the tool makes now."""
    made = {definitions.PAGE: definitions.renewed}
    made |= {page: functools.partial(definitions.with_private_files, page.parent.name) for page in CRATE_PAGES}
    stale = [page.relative_to(TOP) for page, renewed in made.items() if renewed(page.read_text()) != page.read_text()]
    return [f"{page} is not what tools/definitions.py makes: run it" for page in stale]


def counts_are_those_of_the_sources(place):
    """The counts of docs/internals/GATE.md are those that the tool makes now."""
    page = counts.PAGE.read_text()
    stale = "docs/internals/GATE.md is not what tools/counts.py makes: run it"
    return [stale] * (counts.renewed(page) != page) + ["no sentence has the sums"] * (not counts.SUMS.search(page))


def functions_of(crate):
    """The texts of the functions of a crate, by their names."""
    found = {}
    for file in (CRATES / crate / "src").rglob("*.rt"):
        for _, name, text in FUNCTION.findall(file.read_text()):
            found.setdefault(name, []).append(text)
    return found


def calls_are_those_of_the_sources(place):
    """In the way of a command on docs/internals/ARCHITECTURE.md each function is called by what it is indented under."""
    page, wrong, stack = (INTERNALS / "ARCHITECTURE.md").read_text(), [], []
    lines = re.search(r"call by call;.*\n\n((?: {4}.*\n)+)", page)[1].splitlines()
    for indent, name, crate in (CALLED.match(line).groups() for line in lines):
        while stack and len(stack[-1][0]) >= len(indent):
            stack.pop()
        crate = crate or stack[-1][2]
        above = functions_of(stack[-1][2]).get(stack[-1][1], []) if stack else [f"{name}("]
        wrong += [f"{stack[-1][1]} doesn't call {name}" for _ in above[:1] if not any(re.search(rf"\b{name}(?:::<[^>]*>)?\(", text) for text in above)]
        wrong += [f"{crate} has no {name}"] * (name not in functions_of(crate))
        stack.append((indent, name, crate))
    return wrong


def runs_call_what_is_there(place):
    """Each name of docs/internals/CALLS.md is a function of its crate, of a type that is named there, and the table above counts these names."""
    page, wrong, both = (INTERNALS / "CALLS.md").read_text(), [], 0
    counts_of = {crate: tuple(map(int, (command or 0, format_ or 0))) for crate, command, format_ in re.findall(r"(?m)^\| ([\w ]+) \|(?: (\d+))? \|(?: (\d+))? \|$", page)}
    found = {}
    for crate, *cells in re.findall(r"(?m)^\| (\w+) \| ([^|]*)\| ([^|]*)\| ([^|]*)\|$", page)[1:]:
        names = [" ".join(CODE.findall(cell)).split() for cell in cells]
        text = "\n".join(file.read_text() for file in (CRATES / crate / "src").rglob("*.rt"))
        lost = [name for name in sum(names, []) if not all(re.search(pattern, text) for pattern in patterns_of(*name.split("::")))]
        wrong += [f"docs/internals/CALLS.md: {crate} has no {name}" for name in lost]
        found[crate] = tuple(len(names[0]) + len(alone) for alone in names[1:])
        both += len(names[0])
    found["in all"] = tuple(map(sum, zip(*found.values())))
    return wrong + different_from_code("numbers of calls", counts_of, found) + [f"{both} are called by both"] * (f"\n{both} of them are called by both" not in page)


def patterns_of(*name):
    """How the type of a function, if it has one, and the function are found in a text."""
    return [rf"\b{kind}\b" for kind in name[:-1]] + [rf"\bfn {name[-1]}\b"]


def index_has_what_is_cited(place):
    """Each definition that a contract cites by its name is in docs/internals/DEFINITIONS.md, whatever the tool finds."""
    texts = [file.read_text() for file in CRATES.glob("bz_*/src/*.rt")]
    uses = [use[1] for text in texts for use in CITED.findall(text) if not re.search(r"(?:^|\.)(?:declared|formers|contracts)\.", use[0])]
    cited = {name.strip().partition(" as ")[0] for use in uses for name in use.split(",")}
    named = set(WORD.findall(definitions.PAGE.read_text()))
    lost = sorted(name for name in cited if re.fullmatch(r"[A-Za-z_]+", name) and name not in named)
    return [f"docs/internals/DEFINITIONS.md doesn't name {name}" for name in lost] if cited else ["no contract cites a definition"]


def files_of_lemmas_are_there(place):
    """Each file of proofs in the table of lemmas of docs/internals/PROOFS.md is one of the crates of its row."""
    rows = re.findall(r"(?m)^\| (bz_[\w, ]+) \| (.*) \|$", (INTERNALS / "PROOFS.md").read_text())
    named = [(crates.split(", "), name) for crates, row in rows for name in re.findall(r"\b[A-Z]\w+", row)]
    lost = [name for crates, name in named if not any((CRATES / crate / "proofs" / f"{name}.antt").exists() for crate in crates)]
    return lost if named else ["no file of lemmas is named"]


FOUND = {name: an_example(name, block) for name, block in named_examples().items()} | examples_in_shells()
FOUND |= named(shells_are_there, refusals, attributes, commands, examples_of_commands, rows_for_theirs, layers, libraries_are_used, libraries_of_the_table, rows_of_the_gate)
FOUND |= named(
    pages_are_linked, readme_is_short, pages_of_crates_have_their_form, files_are_there, crates_are_there, names_are_there, definitions_are_there,
    made_of_definitions, counts_are_those_of_the_sources, calls_are_those_of_the_sources, runs_call_what_is_there, index_has_what_is_cited, files_of_lemmas_are_there,
)  # fmt: skip
SCENES = Scenes(__file__, FOUND, place=on_path, lanes=PROCESSORS)

if __name__ == "__main__":
    SCENES.main()
