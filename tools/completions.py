#!/usr/bin/env python3
"""Makes the completions of both programs for bash, zsh and fish from the tables of docs/buildozer.md and docs/buildifier.md, and those of the
commands for whole trees also from contrib/tree/README.md, so that a command or option is in one place.

tools/completions/ has what each shell does, with names between two `@` where a table goes, and candidates.sh, a script of sh that all
three shells run to learn what an operand of buildozer may become.

    tools/completions.py FOLDER   puts them below FOLDER, where each shell looks for them; a file that would not change stays
"""
import pathlib
import re
import sys

from blocks import CODE, OF_TREES, REFERENCE, TOP, sections, tables_of
from manual import put

TEMPLATES = TOP / "tools" / "completions"
# where each file of a shell goes
PLACES = {"bash": "bash-completion/completions/{}", "zsh": "zsh/site-functions/_{}", "fish": "fish/vendor_completions.d/{}.fish"}
# what candidates.sh knows of a word in the form of a command, and of words that mean something else in one command
KNOWN = {"ATTR": "ATTR", "KIND": "KIND", "RULE": "RULE", "FIELD": "FIELD", "VALUE": "LABEL"}
OF_COMMAND = {("rename", "OLD"): "ATTR", ("move", "FROM"): "ATTR", ("move", "TO"): "ATTR",
              ("replace", "OLD"): "LABEL", ("replace", "NEW"): "LABEL"}  # fmt: skip
UNKNOWN = "-"
# what requests a text alone, and what that text is
ASKED = {"--help": "prints the options and examples", "--version": "prints the version"}


# ---- the forms of commands


def sequences(tokens):
    """All rows of words that a form allows; what is in brackets may be left out."""
    if not tokens:
        return [[]]
    if tokens[0] != "[":
        return [[tokens[0], *rest] for rest in sequences(tokens[1:])]
    depth = 0
    for end, token in enumerate(tokens):
        depth += (token == "[") - (token == "]")
        if depth == 0:
            break
    after = sequences(tokens[end + 1 :])
    return [front + rest for front in [*sequences(tokens[1:end]), []] for rest in after]


def is_literal(word):
    return word == "*" or word[:1].islower()


def what_stands(command, words, at):
    """What candidates.sh is given of the word at this place: what it is, and, after a word that is written as it is, which one."""
    word = words[at].removesuffix("..")
    what = word if is_literal(word) else OF_COMMAND.get((command, word), KNOWN.get(word, UNKNOWN))
    before = words[at - 1] if at else ""
    return f"{before}>{what}" if is_literal(before) and what != UNKNOWN else what


def place(command, rows, at):
    """What may be at a place: each thing with a `+` where a further word is needed after it."""
    there = {}
    for words in rows:
        if len(words) > at:
            there.setdefault(what_stands(command, words, at), []).append(len(words) == at + 1)
    things = [what + "+" * (not any(ends)) for what, ends in there.items() if what.rpartition(">")[2] != UNKNOWN]
    things = [thing for thing in things if thing.partition(">")[2] not in things]
    repeated = any(len(words) > at and words[at].endswith("..") for words in rows)
    return ("|".join(things) or UNKNOWN) + ".." * repeated


def commands(blocks):
    """A line for each command: its name, its places and its forms, between semicolons."""
    forms, told = {}, {}
    for row in tables_of(blocks, "Command"):
        for form in CODE.findall(row[0]):
            name, _, words = form.partition(" ")
            forms.setdefault(name, []).append(words)
            told.setdefault(name, row[1])
    lines = []
    for name, all_words in forms.items():
        tokens = [re.findall(r"[][]|[^][ ]+", re.sub(r"\[[A-Z]+=\]", "", words)) for words in all_words]
        rows = [words for form in tokens for words in sequences(form)]
        places = [place(name, rows, at) for at in range(max(map(len, rows)))]
        form = " or ".join(filter(None, all_words)) or CODE.sub(r"\1", told[name])
        lines.append(f"{name}{'' if [] in rows else '+'};{' '.join(places)};{form}")
    return lines


# ---- the other tables


def attributes(found):
    """The attributes of the tables, and those whose values are labels."""
    rows = {row[0].split(":")[0]: CODE.findall(row[1]) for row in tables_of(found["buildifier"], "Attributes")}
    return sorted({name for names in rows.values() for name in names}), rows["Labels"]


def fields(blocks):
    """The fields that `print` knows beside attributes: those that its row names in small letters, up to the attribute's."""
    row = next(row for row in tables_of(blocks, "Command") if row[0].startswith("`print ["))
    return CODE.findall(row[1].split(", or ")[0])


def which(blocks):
    """What may be after the colon of a target as it is, such as `all`."""
    forms = [form for row in tables_of(blocks, "Target") for form in CODE.findall(row[0])]
    return [word for form in forms for word in re.findall(r":(\w+)$", form) if word == word.lower() and form.startswith("//pkg")]


def options(blocks):
    """The options: each, with `=` where that parts it from its value, the word for the value, or none, and what it does, in a few words."""
    rows = [(re.split("(?<==)| ", CODE.findall(row[0])[0]), row[1]) for row in tables_of(blocks, "Option")]
    short = [(*words, "")[:2] + (re.split(r"[;,:]", CODE.sub(r"\1", told))[0],) for words, told in rows]
    return [*short, *((option, "", told) for option, told in ASKED.items())]


def words_of(blocks, option):
    """The words of an option of buildifier, by its table."""
    return " ".join(CODE.findall(row[0])[0] for row in tables_of(blocks, option))


def sh(text):
    """A text inside quotation marks of sh, bash and zsh."""
    return text.replace("'", "'\\''")


def fish(text):
    return text.replace("\\", "\\\\").replace("'", "\\'")


def zsh_option(option, word, told):
    excluded = "(- *)" if option in ASKED else "(*)" if option == "-f" else ""
    told = re.sub(r"([][:\\])", r"\\\1", told)
    return f"    '{excluded}{option}[{sh(told)}]{':' + word.lower().rstrip(',.') + ':_files' if word else ''}' \\"


def fish_option(name, option, word, told):
    option = option.rstrip("=")
    flag = f"-l {option[2:]}" if option.startswith("--") else f"-s {option[1:]}"
    return f"complete -c {name} {flag}{' -r -F' if word else ''} -d '{fish(told)}'"


# ---- files


def filled(text, tables):
    for name, table in tables.items():
        text = text.replace(f"@{name}@", table)
    return text


def template(name):
    return (TEMPLATES / name).read_text()


def candidates(found):
    known, labels = attributes(found)
    tables = {
        "COMMANDS": "\n" + "\n".join(commands(found["buildozer"])) + "\n",
        "ATTRIBUTES": " ".join(known),
        "LABEL_ATTRIBUTES": " ".join(labels),
        "FIELDS": " ".join(fields(found["buildozer"])),
        "WHICH": " ".join(which(found["buildozer"])),
    }
    return filled(template("candidates.sh"), {name: sh(table) for name, table in tables.items()}).rstrip("\n")


def options_for(shell, name, rows):
    """The options of a program as the file of a shell has them."""
    if shell == "bash":
        return " ".join(row[0] for row in rows)
    return "\n".join(zsh_option(*row) if shell == "zsh" else fish_option(name, *row) for row in rows)


def main():
    found, trees = sections(REFERENCE), sections(OF_TREES)
    script = candidates(found)
    for program in ("buildozer", "buildifier"):
        for name, page, blocks in ((program, "docs/", found[program]), (f"{program}-tree", OF_TREES[0], trees[f"{program}-tree"])):
            rows = [row for row in options(blocks) if row[0] != "--type="]
            tables = {"NAME": name, "PAGE": page,
                      "MODES": words_of(trees[name] if name in trees else found["buildifier"], "Mode"), "TYPES": words_of(found["buildifier"], "Type"),
                      "OPERAND": "folder or file" if name in trees else "BUILD or .bzl file"}  # fmt: skip
            for shell, place in PLACES.items():
                own = {"CANDIDATES": fish(script) if shell == "fish" else script, "OPTIONS": options_for(shell, name, rows)}
                put(pathlib.Path(sys.argv[1], place.format(name)), filled(template(f"{program}.{shell}"), {**own, **tables}))


if __name__ == "__main__":
    main()
