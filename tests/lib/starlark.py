"""The grammar of .bzl files and of BUILD files, written out apart from the programs; texts of it by chance; and the first fault of a text.

The grammar is read by Earley's method, which keeps all that the tokens so far may be a beginning of. Each nonterminal here has a text, so a
row of tokens begins an accepted one exactly as long as something is kept: the first token with which nothing is left is where a text is
refused as Unexpected. Lines are compared by their indents before that: where no statement may begin at an indent, its line is Indented.
"""

import random
import re

from lib.grammar import ASSIGN, Text

# nonterminals with their alternatives; small letters are nonterminals, all else is tokens (`assign` and `bitor` are below)
SHARED = """
line = smalls NEWLINE | smalls ; NEWLINE
smalls = small | smalls ; small
small = expr | expr assign expr | load
load = LOAD ( STRING ) | LOAD ( STRING , ) | LOAD ( STRING , symbols ) | LOAD ( STRING , symbols , )
symbols = symbol | symbols , symbol
symbol = STRING | NAME = STRING
expr = test | test , tests
tests = test | tests , test
cond = or | or IF or ELSE test
or = and | or OR and
and = not | and AND not
not = NOT not | compare
compare = bitor | bitor order bitor
order = == | != | < | > | <= | >= | IN | NOT IN
xor = bitand | xor ^ bitand
bitand = shift | bitand & shift
shift = sum | shift << sum | shift >> sum
sum = product | sum + product | sum - product
product = unary | product * unary | product / unary | product // unary | product % unary
unary = primary | + unary | - unary | ~ unary
primary = NAME | NUMBER | STRING | primary . NAME
primary = primary ( ) | primary ( arguments ) | primary ( arguments , ) | primary [ expr ] | primary [ slice ]
primary = [ ] | [ tests ] | [ tests , ] | { } | { entries } | { entries , } | ( ) | ( test ) | ( test , ) | ( test , tests ) | ( test , tests , )
primary = [ test clauses ] | { entry clauses }
slice = from : | from : test | from : : | from : test : | from : : test | from : test : test
from = expr |
arguments = argument | arguments , argument
argument = test | NAME = test | * test | ** test
entries = entry | entries , entry
entry = test : test
clauses = for | clauses for | clauses if
for = FOR primaries IN or
if = IF or
primaries = primary | primaries , primary
"""
BUILD = """
file = END | lines END
lines = line | lines line
test = cond
"""
BZL = """
file = END | stmts END
stmts = stmt | stmts stmt
test = cond | LAMBDA : test | LAMBDA params : test
stmt = line | DEF NAME ( ) : suite | DEF NAME ( params ) : suite | DEF NAME ( params , ) : suite | FOR primaries IN expr : suite | branch | branch ELSE : suite
branch = IF test : suite | branch ELIF test : suite
suite = line | NEWLINE INDENT stmts DEDENT
params = param | params , param
param = NAME | NAME = test | * | * NAME | ** NAME
small = RETURN | RETURN expr | BREAK | CONTINUE | PASS
"""
KEYWORDS = ["and", "break", "continue", "def", "elif", "else", "for", "if", "in", "lambda", "load", "not", "or", "pass", "return"]
CLOSED = {"(": ")", "[": "]", "{": "}"}

# characters and strings with which no token begins, and how they are refused
WRONG_CHARACTERS = {"$": "BadCharacter", "?": "BadCharacter", '"open': "OpenString", "'''open": "OpenString"}


def rules_of(text):
    """The alternatives of each nonterminal."""
    rules = {"assign": [(token,) for token in ASSIGN], "bitor": [("xor",), ("bitor", "|", "xor")]}
    for row in text.strip().splitlines():
        if row:
            name, _, right = row.partition(" = ")
            rules.setdefault(name, []).extend(tuple(alternative.split()) for alternative in re.split(r" \|(?: |$)", right))
    return rules


RULES = {"build": rules_of(SHARED + BUILD), "bzl": rules_of(SHARED + BZL)}


class Prefixes:
    """What the tokens so far may be a beginning of, in one of the grammars: at each place the alternatives that are under way there, by what
    they go on with."""

    def __init__(self, kind):
        self.rules, self.places = RULES[kind], []
        self.begin({("file", row, 0, 0) for row in self.rules["file"]})

    def begin(self, rows):
        """A further place, of these rows and all that begin at or end with them."""
        here, known, waiting = len(self.places), set(rows), list(rows)
        place = {}
        self.places.append(place)
        while waiting:
            name, row, at, since = waiting.pop()
            if at == len(row):
                found = [(n, r, a + 1, s) for n, r, a, s in self.places[since].get(name, [])]
            else:
                place.setdefault(row[at], []).append((name, row, at, since))
                found = [(row[at], other, 0, here) for other in self.rules.get(row[at], [])]
                if () in self.rules.get(row[at], []):
                    found.append((name, row, at + 1, since))
            for one in found:
                if one not in known and one[1]:
                    known.add(one)
                    waiting.append(one)

    def expects(self, token):
        return token in self.places[-1]

    def take(self, token):
        """Whether some accepted row of tokens goes on with this one; then it is taken."""
        rows = self.places[-1].get(token)
        if rows:
            self.begin({(name, row, at + 1, since) for name, row, at, since in rows})
        return bool(rows)


class Piece:
    """A token of a text, with the gap before it. A newline within brackets is one too, though it is part of a gap."""

    def __init__(self, token, gap=""):
        self.token, self.gap = token, gap

    def terminal(self):
        if self.token in KEYWORDS:
            return self.token.upper()
        if self.token == "\n":
            return "NEWLINE"
        if re.match(r"[\w]", self.token) and not self.token[0].isdigit() and self.token[-1] not in "'\"":
            return "NAME"
        if self.token[-1] in "'\"":
            return "STRING"
        return "NUMBER" if re.match(r"\.?\d", self.token) else self.token


def first_fault(kind, pieces):
    """The first fault of a text: its name and the number of its piece (that of all pieces is the end); None where it is accepted."""
    prefixes, blocks, brackets, is_new = Prefixes(kind), [""], [], True
    for number, piece in enumerate(pieces):
        # (one within brackets, or on a blank line, is part of a gap)
        if piece.token == "\n" and (brackets or is_new):
            continue
        if is_new:
            fault = line_fault(kind, prefixes, blocks, re.search(r"[ \t]*\Z", piece.gap)[0])
            if fault:
                return fault, number
        is_new = piece.token == "\n"
        if piece.token in WRONG_CHARACTERS:
            return WRONG_CHARACTERS[piece.token], number
        if not prefixes.take(piece.terminal()):
            return "Unexpected", number
        if piece.token in CLOSED:
            brackets.append(piece.token)
        elif piece.token in CLOSED.values():
            brackets.pop()
    ends = [] if is_new or not pieces else ["NEWLINE"]
    if prefixes.expects("INDENT") or not all(prefixes.take(token) for token in [*ends, *["DEDENT"] * (len(blocks) - 1), "END"]):
        return "Unexpected", len(pieces)
    return None


def line_fault(kind, prefixes, blocks, indent):
    """Whether no statement may begin at the indent of a line; else the suites that end there are ended, or the one that begins is begun."""
    if kind == "build":
        return "Indented" if indent else None
    if prefixes.expects("INDENT"):
        if not indent.startswith(blocks[-1]) or indent == blocks[-1]:
            return "Indented"
        prefixes.take("INDENT")
        blocks.append(indent)
        return None
    if indent not in blocks:
        return "Indented"
    while blocks[-1] != indent:
        prefixes.take("DEDENT")
        blocks.pop()
    return None


class File(Text):
    """The making of one text of many lines, as pieces; of a .bzl file with functions, branches and loops."""

    def __init__(self, kind, seed):
        super().__init__(seed)
        self.kind, self.pieces = kind, []

    def test(self, left):
        if self.kind == "bzl" and left > 0 and self.odds(0.05):
            return ["lambda", *self.many(self.param, 0, 2), ":", *self.test(left - 1)]
        return super().test(left)

    def param(self):
        return self.one([["a"], ["b"], ["c", "=", *self.test(1)], ["*"], ["*", "d"], ["**", "e"]])

    def small(self):
        if self.kind == "bzl" and self.odds(0.3):
            return self.one([["return"], ["return", *self.expr(2)], ["break"], ["continue"], ["pass"]])
        return super().small()

    def gap(self, first, indent):
        """What is in front of a token: of the first one of a line blank lines, comments and the indent."""
        if not first:
            return self.one([" ", " ", " ", "  ", " \\\n"])
        return "".join(self.one(["", "", "", "\n", " \n", f"{indent}# c\n"]) for _ in range(2)) + indent

    def put(self, tokens, indent, first=True):
        depth = 0
        for number, token in enumerate(tokens):
            if depth and self.odds(0.05):
                self.pieces.append(Piece("\n", " "))
            self.pieces.append(Piece(token, self.gap(first and number == 0, indent)))
            depth += (token in CLOSED) - (token in CLOSED.values())

    def line(self, indent, first=True):
        self.put(self.small(), indent, first)
        while self.odds(0.2):
            self.put([";", *self.small()], indent, False)
        self.put([";"] * self.odds(0.1) + ["\n"], indent, False)

    def suite(self, indent, left):
        self.put([":"], indent, False)
        if self.odds(0.25):
            return self.line(indent, False)
        self.put(["\n"], indent, False)
        self.block(indent + self.one([" ", "    ", "\t"]), left - 1)

    def compound(self, indent, left):
        header = self.one(["def", "for", "if", "if"])
        if header == "def":
            self.put(["def", "f", "(", *self.many(self.param, 0, 3), ")"], indent)
        elif header == "for":
            self.put(["for", *self.many(lambda: self.primary(1), 1, 2), "in", *self.expr(1)], indent)
        else:
            self.put(["if", *self.test(2)], indent)
        self.suite(indent, left)
        while header == "if" and self.odds(0.3):
            self.put(["elif", *self.test(1)], indent)
            self.suite(indent, left)
        if header == "if" and self.odds(0.4):
            self.put(["else"], indent)
            self.suite(indent, left)

    def block(self, indent, left):
        for _ in range(self.chance.randint(1, 2 if indent else 3)):
            if self.kind == "bzl" and left > 0 and self.odds(0.5):
                self.compound(indent, left)
            else:
                self.line(indent)

    def made(self):
        self.block("", 2)
        return self.pieces


def spelled(pieces):
    return "".join(piece.gap + piece.token for piece in pieces)


def place_of(pieces, number):
    """The line and the column of a piece of a text, or of its end."""
    before = spelled(pieces[:number]) + (pieces[number].gap if number < len(pieces) else "")
    return before.count("\n") + 1, len(before) - before.rfind("\n")
