"""Texts that the grammar of BUILD files accepts, made by chance: each construct of it, with odd gaps between the tokens.

A text is made as a list of tokens, and then the gaps are put between them: nothing where two tokens stay two, spaces, tabs, escaped
newlines, and within brackets newlines and comments. What is made is accepted whatever the chance, so that a refusal is a fault.
"""

import random

NAMES = ["a", "b", "name", "deps", "srcs", "x1", "_y", "select", "glob", "\u00e9t\u00e9", "keep", "visibility", "in_", "tags"]
NUMBERS = ["0", "1", "007", "12.5", "1.", ".5", "1e5", "2.E-3", "0x1F", "0O17"]
STRINGS = ['"a"', "'b'", '""', "''", '"//a/b:b"', '":x"', "'# no comment'", '"it\\"s"', "r'\\d'", 'b"x"', '"""one\ntwo # no comment\n"""', "'''a'b\\''''", '"\u4e16"', "'a\\\nb'", 'rb"y"']
BINARY = [["or"], ["and"], ["==", "!=", "<", ">", "<=", ">=", "in", "not in"], ["|"], ["^"], ["&"], ["<<", ">>"], ["+", "-"], ["*", "/", "//", "%"]]
ASSIGN = ["=", "+=", "-=", "*=", "/=", "//=", "%=", "&=", "|=", "^=", "<<=", ">>="]
COMMENTS = ["# c", "#", "# keep sorted", "# do not sort", "# buildifier: leave-alone", "#\u00e9 ", "# \\", "## '\"", "#\tt\t"]
# between two of these characters a gap may be empty, whatever is on the other side
ALONE = set("()[]{},")


class Text:
    """The making of one text."""

    def __init__(self, seed):
        self.chance = random.Random(seed)

    def one(self, things):
        return self.chance.choice(things)

    def odds(self, part):
        return self.chance.random() < part

    def many(self, make, least, most):
        """Some of what `make` gives, with commas between."""
        found = []
        for number in range(self.chance.randint(least, most)):
            found += ([","] if number else []) + make()
        return found

    def bracketed(self, left, inner, right, comma=True):
        return [left, *inner, *([","] if inner and comma and self.odds(0.3) else []), right]

    # ---- expressions, each with how many further levels it may have; `level` is that of its operator, loosest first

    def expr(self, left):
        return self.many(lambda: self.test(left), 2, 3) if self.odds(0.1) else self.test(left)

    def test(self, left):
        if left > 0 and self.odds(0.08):
            return [*self.operation(left - 1, 0), "if", *self.operation(left - 1, 0), "else", *self.test(left - 1)]
        return self.operation(left, 0)

    def operation(self, left, level):
        if left <= 0 or level == len(BINARY) or self.odds(0.6):
            return self.unary(left, level)
        if self.odds(0.85):
            return self.operation(left, level + 1)
        operands = 2 if level == 2 else self.chance.randint(2, 4)
        found = self.operation(left - 1, level + 1)
        for _ in range(operands - 1):
            found += [*self.one(BINARY[level]).split(), *self.operation(left - 1, level + 1)]
        return found

    def unary(self, left, level):
        if level <= 2 and left > 0 and self.odds(0.05):
            return ["not", *self.operation(left - 1, 2)]
        if left > 0 and self.odds(0.06):
            return [self.one("+-~"), *self.unary(left - 1, len(BINARY))]
        return self.primary(left)

    def leaf(self):
        return [self.one(self.one([NAMES, NUMBERS, STRINGS, STRINGS]))]

    def primary(self, left):
        if left <= 0 or self.odds(0.45):
            return self.leaf()
        return self.one([self.dot, self.call, self.call, self.index, self.slice, self.list, self.list, self.dict, self.tuple, self.comprehension])(left - 1)

    def dot(self, left):
        return [*self.primary(left), ".", self.one(NAMES)]

    def argument(self, left):
        named = self.odds(0.6)
        starred = self.odds(0.1)
        return [*([self.one(NAMES), "="] if named else [self.one(["*", "**"])] if starred else []), *self.test(left)]

    def call(self, left):
        return [*self.primary(left), *self.bracketed("(", self.many(lambda: self.argument(left - 1), 0, 4), ")")]

    def index(self, left):
        return [*self.primary(left), "[", *self.expr(left), "]"]

    def slice(self, left):
        step = [":", *(self.test(left) if self.odds(0.5) else [])] if self.odds(0.3) else []
        ends = [self.expr(left) if self.odds(0.6) else [], self.test(left) if self.odds(0.6) else []]
        return [*self.primary(left), "[", *ends[0], ":", *ends[1], *step, "]"]

    def list(self, left):
        return self.bracketed("[", self.many(lambda: self.test(left), 0, 4), "]")

    def entry(self, left):
        return [*self.test(left), ":", *self.test(left)]

    def dict(self, left):
        return self.bracketed("{", self.many(lambda: self.entry(left - 1), 0, 3), "}")

    def tuple(self, left):
        items = self.many(lambda: self.test(left), 0, 3)
        return self.one([["(", *self.test(left), ")"], ["(", *self.test(left), ",", ")"], ["(", *items, ")"]])

    def comprehension(self, left):
        clauses = ["for", *self.many(lambda: self.primary(left - 1), 1, 2), "in", *self.operation(left - 1, 0)]
        if self.odds(0.4):
            clauses += ["if", *self.operation(left - 1, 0)]
        return self.one([["[", *self.test(left), *clauses, "]"], ["{", *self.entry(left - 1), *clauses, "}"]])

    # ---- statements

    def load(self):
        symbol = lambda: ([self.one(NAMES), "="] if self.odds(0.4) else []) + ['"%s"' % self.one(NAMES)]
        return ["load", *self.bracketed("(", ['"//:%s.bzl"' % self.one("ab"), ",", *self.many(symbol, 1, 3)], ")")]

    def rule(self):
        arguments = ["name", "=", '"%s"' % self.one("xyz"), *(part for _ in range(self.chance.randint(0, 4)) for part in [",", *self.argument(3)])]
        return [self.one(["cc_library", "genrule", "package", "native"]), *self.bracketed("(", arguments, ")")]

    def small(self):
        return self.one([self.load, self.rule, self.rule, lambda: [*self.expr(3), self.one(ASSIGN), *self.expr(4)], lambda: self.expr(4)])()

    # ---- gaps

    def between(self, before, after, inside):
        """A gap between two tokens, inside of brackets or not."""
        may_be_empty = before[-1] in ALONE or after[0] in ALONE
        pieces = [" ", "  ", "\t", " \\\n", " \\\r\n"] + (["\n", "\r\n", f" {self.one(COMMENTS)}\n", f"{self.one(COMMENTS)}\r\n "] if inside else [])
        if self.odds(0.85):
            return "" if may_be_empty and self.odds(0.5) else " "
        return "".join(self.one(pieces) for _ in range(self.chance.randint(1, 3)))

    def spelled(self, tokens):
        text, depth = "", 0
        for before, after in zip([None, *tokens], tokens):
            text += (self.between(before, after, depth > 0) if before else "") + after
            depth += (after in ("(", "[", "{")) - (after in (")", "]", "}"))
        return text

    def line(self):
        smalls = [self.spelled(self.small()) for _ in range(1 if self.odds(0.8) else self.chance.randint(2, 3))]
        end = self.one(["", "", "", " ", f"  {self.one(COMMENTS)}", " ;", "; ", "\t\\\n"])
        above = self.one(["", "", "", "\n", "\n\n", f"{self.one(COMMENTS)}\n", f"  {self.one(COMMENTS)}\r\n", f"{self.one(COMMENTS)}\n\n", "\\\n"])
        return above + self.one([";", "; ", " ; "]).join(smalls) + end

    def made(self):
        lines = "".join(self.line() + self.one(["\n", "\n", "\n", "\r\n"]) for _ in range(self.chance.randint(0, 3)))
        return lines + self.one(["", "", "", self.line(), self.one(COMMENTS), "\n", " \n"])


def text(seed):
    """The text of a seed, in UTF-8."""
    return Text(seed).made().encode()
