#!/usr/bin/env python3
"""Which definitions a reader has to trust: those that the contracts of public calls name, and what these are made of.

    tools/trusted.py            for each crate, in the order of crates.txt: the lines of its specs/; how many of them the contracts of the public
                                calls of all crates reach, those of the surface, and those of the two engines alone
    tools/trusted.py --names    beside it the names, file by file
    tools/trusted.py --programs the same, of the two engines alone

The surface is what the program surface uses: the calls and types that are promised to who writes over these crates. A contract reaches the
definitions that it names, and those that they name. What the contracts of private functions alone reach is in specs/private/ where a whole
file is of that kind.

Lines are those of definitions and of the comments right above them; lines of imports and empty ones count in no number. The last row is the
port to the system's files: the lines of the trait `Files` without comments and empty ones, its acts and what is assumed of each. It may have at
most MOST_OF_PORT; past that the status is 1.
"""
import collections
import functools
import pathlib
import re
import sys

TOP = pathlib.Path(__file__).resolve().parent.parent
CRATES = [line.partition(":")[0] for line in (TOP / "crates.txt").read_text().splitlines() if ":" in line and not line.startswith("#")]
ENGINES = frozenset({("bz_buildozer", "buildozer"), ("bz_buildifier", "buildifier")})
START = re.compile(r"^(?:(?:abbrev|unfoldable|pub|record|data) )*([^\s:({]+) *[:({]")
USE = re.compile(r"^\s*(?:ghost |pub )?use Rattle\.([\w.«»+-]+?)(?:\.\{([^}]*)\}| as (\S+?));?$")
WORD = re.compile(r"[^\s(){}\[\],;]+")
EXPORT = re.compile(r"(?m)^pub use (?:crate::|self::)?(\w+)::(?:\{([^}]*)\}|(\w+));")
# a block of methods, of a trait, of a type, or of a trait for a type; a public call, and one among the methods of each
BLOCK = re.compile(r"^(?:pub (trait)|impl) *([\w:]+)(?: for (\w+))?")
# what a file brings in from a crate, by itself or several names at once, with the module where it is not the crate's root
BROUGHT = re.compile(r"(?m)^(?:pub )?use (bz_\w+)::((?:\w+::)*)(?:\{([^}]*)\}|(\w+));")
# the trait of the port to the system's files, and how many lines it may have
PORT, MOST_OF_PORT = TOP / "crates" / "bz_files" / "src" / "files.rt", 120
CALL, OF_TYPE, OF_TRAIT = re.compile(r"^pub fn (\w+)"), re.compile(r"^    pub fn (\w+)"), re.compile(r"^    fn (\w+)")


def imports(lines):
    """Each name that is imported by itself, and each module that has a short name, with the module that it is of."""
    single, modules = {}, {}
    for line in lines:
        if found := USE.match(line):
            module, names, alias = found.groups()
            for name in (names or "").split(","):
                name, _, other = name.strip().partition(" as ")
                single[other or name] = (module, name)
            if alias:
                modules[alias] = module
    return single, modules


def chunks(lines):
    """The definitions of a file: the names that each begins, how many lines it has with the comments above, and its text. Those of a
    module with parameters are at its margin."""
    at, found, comments = 0, [], 0
    while at < len(lines):
        line = lines[at].strip()
        if line.startswith(("--", "infix")):
            comments += 1
        elif not line or line.startswith(("use ", "pub use ", "pub mod ", "module ", "open ")):
            comments = 0
        else:
            margin = lines[at][: len(lines[at]) - len(lines[at].lstrip())]
            name = None if line in ("mutual", "abbrev mutual") else START.match(line)
            own, end = name[1] if name else None, at + 1
            while end < len(lines) and is_further(lines, end, margin, own):
                end += 1
            body = lines[at:end]
            names = [own] if own else [m[1] for row in body if (m := START.match(row.strip()))]
            found.append((names, comments + sum(1 for row in body if row.strip()), "\n".join(body)))
            comments, at = 0, end
            continue
        at += 1
    return found


def is_further(lines, at, margin, own):
    """Whether this line belongs to a definition of that name at that margin: it is indented further, or begins with the name."""
    deeper = f"{margin} "
    is_gap = not lines[at].strip() and at + 1 < len(lines) and lines[at + 1].startswith(deeper)
    return is_gap or lines[at].startswith(deeper) or own is not None and bool(re.match(rf"{margin}{re.escape(own)}[\s=]", lines[at]))


def constructors(text):
    """The names of the constructors of a definition that has some."""
    return re.findall(r"(?m)^ +([^\s:({]+) :", text) if re.match(r" *(?:pub )?data ", text) else []


@functools.cache
def exported(crate):
    """What a crate offers: for each of its modules the names that its root passes on; `None` for a module that is public as a whole."""
    root = TOP / "crates" / crate / "src" / "lib.rt"
    text = root.read_text() if root.exists() else ""
    names = {}
    for module, many, one in EXPORT.findall(text):
        names.setdefault(module, set()).update(name.strip().partition(" as ")[0] for name in (many or one).split(","))
    return {**names, **dict.fromkeys(re.findall(r"(?m)^pub mod (\w+);", text))}


def block_of(line):
    """The type or the trait that a block of methods is of, where one begins, and how a public one of its methods begins."""
    while (plain := re.sub(r"<[^<>]*>", "", line)) != line:
        line = plain
    found = BLOCK.match(line)
    return found and (found[3] or found[2], OF_TRAIT if found[1] else OF_TYPE)


def contracts(crate, file):
    """The texts of the contracts of public calls and of public types in a file of code, each with the name of the call, or of the type
    whose method it is. Public is what the crate's root passes on, and each method of a type or a trait that is."""
    own = exported(crate).get(file.stem, set())
    types = {name for names in exported(crate).values() if names for name in names}
    found, lines, at, owner, begins = [], file.read_text().split("\n"), 0, None, CALL
    while at < len(lines):
        if lines[at].startswith("}"):
            owner, begins = None, CALL
        owner, begins = block_of(lines[at]) or (owner, begins)
        if call := begins.match(lines[at]):
            body = []
            while at < len(lines) and not re.match(r"^\s*\{(\})?$", lines[at]) and not lines[at].endswith((";", " {")):
                body.append(lines[at])
                at += 1
            if owner in types if owner else own is None or call[1] in own:
                found.append((owner or call[1], "\n".join([*body, *lines[at : at + 1]])))
        elif re.match(r"^\s*ghost (?!use)", lines[at]) and owner in types:
            found.append((owner, lines[at]))
        at += 1
    return found


class Definitions:
    """All definitions of specs/, each by the module in which it is and its first name."""

    def __init__(self):
        self.texts, self.sizes, self.files = {}, collections.Counter(), {}
        self.owners, self.passed_on = {}, {}
        for crate in CRATES:
            for file in sorted((TOP / "crates" / crate / "specs").rglob("*.antt")):
                self.take(f"{crate}.specs.{'.'.join(file.relative_to(TOP / 'crates' / crate / 'specs').with_suffix('').parts)}", file)

    def take(self, module, file):
        """Takes up those of a file."""
        lines = file.read_text().split("\n")
        single, modules = imports(lines)
        self.passed_on.update({(module, name): home for name, home in imports(line for line in lines if line.startswith("pub use "))[0].items()})
        local, key = {}, None
        for names, size, text in chunks(lines):
            first = text.split()[0]
            if not names or first in local:
                # a further clause, or what closes the definition before
                key = local.get(first, key)
                self.sizes[key] += size
                self.texts[key] = (self.texts[key][0] + "\n" + text, single, modules, local)
                continue
            key = (module, names[0])
            self.sizes[key], self.files[key] = size, file
            self.texts[key] = (text, single, modules, local)
            for name in [*names, *constructors(text)]:
                local.setdefault(name, key)
                self.owners.setdefault((module, name), key)

    def owner(self, home):
        """The definition that a module has under a name, by itself or from another one."""
        while home in self.passed_on and home not in self.owners:
            home = self.passed_on[home]
        return self.owners.get(home)

    def named(self, text, single, modules, local):
        """The definitions that a text names, by what is imported where it is."""
        for word in WORD.findall(text):
            # an operator between what it takes is written without the places of these
            word = next((name for name in (f"◌{word}◌",) if name in local or name in single), word)
            head, _, tail = word.partition(".")
            if word in local:
                yield local[word]
            elif head in local:
                yield local[head]
            elif word in single or head in single:
                yield self.owner(single.get(word) or single[head])
            elif head in modules and tail:
                yield self.owner((modules[head], tail.split(".")[0]))

    def below(self, start):
        """Those that are named from there on."""
        todo, seen = list(start), set()
        while todo:
            key = todo.pop()
            if key and key not in seen:
                seen.add(key)
                todo += self.named(*self.texts[key])
        return seen


@functools.cache
def definitions():
    return Definitions()


def sources():
    """The files of code of each crate."""
    return ((crate, file) for crate in CRATES for file in sorted((TOP / "crates" / crate / "src").rglob("*.rt")))


def brought(text):
    """What a text brings in from crates: for each name the crate, and the module there."""
    return [(name.strip(), crate, module) for crate, module, many, one in BROUGHT.findall(text) for name in (many or one).split(",") if name.strip()]


def home(crate, module, name):
    """The crate that has a call or a type which a crate passes on."""
    text = (TOP / "crates" / crate / "src" / "lib.rt").read_text()
    for given, below, _ in brought("\n".join(re.findall(r"(?ms)^pub use bz_.*?;$", text))):
        if given == (module.split("::")[0] or name):
            return home(below, module, name)
    own = re.search(rf"(?m)^pub use (?!bz_).*\b(\w+) as {name}\b", text)
    return crate, own[1] if own else name


@functools.cache
def surface():
    """The calls and types that the program surface uses, each with the crate that it is of."""
    files = sorted((TOP / "crates" / "surface" / "src").glob("*.rt"))
    return {home(crate, module, name) for file in files for name, crate, module in brought(file.read_text())}


@functools.cache
def trusted(of=None):
    """The definitions that the contracts of public calls reach: of all, or of these calls and types alone."""
    start = []
    for crate, file in sources():
        single, modules = imports(file.read_text().split("\n"))
        for call, text in contracts(crate, file):
            if of is None or (crate, call) in of:
                start += definitions().named(text, single, modules, {})
    return definitions().below(start)


def counts():
    """For each crate that has definitions: its lines, those that public calls reach, those that the surface reaches, and those that the
    engines do."""
    sizes, rows = definitions().sizes, {}
    for crate in CRATES:
        own = [key for key in definitions().texts if key[0].split(".")[0] == crate]
        if own:
            reached = (own, trusted(), trusted(frozenset(surface())), trusted(ENGINES))
            rows[crate] = [sum(sizes[key] for key in own if key in kept) for kept in reached]
    return {**rows, "all": [sum(column) for column in zip(*rows.values())]}


# what the private definitions of another crate alone reach, until its own crate is proved anew for another reason, as all above it then is
WAITING = {"bz_grammar/specs/Places.antt"}


def misplaced():
    """What is wrong with the places of definitions: one of specs/ that names what is in proofs/, or a contract of the surface that does;
    a file of specs/private/ that a public contract reaches, and one outside of it that none reaches."""
    wrong, files = [], {}
    for crate, file in sources():
        single, modules = imports(file.read_text().split("\n"))
        of_proofs = {name for name, (module, _) in single.items() if ".proofs." in module}
        texts = [text for call, text in contracts(crate, file) if (crate, call) in surface()]
        wrong += [f"{crate}/{file.name} cites {name} of proofs/" for name in of_proofs if any(name in WORD.findall(text) for text in texts)]
    for key, file in definitions().files.items():
        files.setdefault(file, []).append(key)
    for file, keys in files.items():
        name = file.relative_to(TOP / "crates")
        is_reached = any(key in trusted() for key in keys)
        if "formers" in file.parts:
            continue
        if file.parent.name == "private" and is_reached:
            wrong.append(f"{name}: a public contract reaches it")
        elif file.parent.name != "private" and not is_reached and str(name) not in WAITING:
            wrong.append(f"{name}: no public contract reaches it")
        elif file.parent.name != "private" and re.search(r"(?m)^use Rattle\.bz_\w+\.proofs", file.read_text()):
            wrong.append(f"{name} cites proofs/")
    return wrong


def port():
    """How many lines the port to the system's files has."""
    trait = re.search(r"(?ms)^pub trait Files \{\n(.*?)^\}", PORT.read_text())[1]
    return sum(1 for line in trait.split("\n") if line.strip() and not line.lstrip().startswith("//"))


def main():
    seen = trusted(ENGINES if "--programs" in sys.argv else None)
    for crate, numbers in counts().items():
        print(f"{crate:14}" + "".join(f" {number:6}" for number in numbers))
        if "--names" in sys.argv:
            for file in dict.fromkeys(definitions().files[key] for key in definitions().texts if key[0].split(".")[0] == crate):
                names = [key[1] for key in definitions().texts if definitions().files[key] == file and key in seen]
                if names:
                    print(f"    {file.name}: " + " ".join(name.split("\n")[0][:40] for name in names))
    print(f"{'the port':14} {port():6}")
    sys.exit(port() > MOST_OF_PORT)


if __name__ == "__main__":
    main()
