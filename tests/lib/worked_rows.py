"""The rows that both programs were worked out by, as data: words, standard input, files and the status that must come.

What a row leaves on its outputs is shown by the sheet of cases and by the folders of tests/PROGRAM; here are the texts and the
words alone, for the scripts that tear the texts, refuse memory, or let a device fail under the programs. Each row that is run by
one of them with nothing against it must end with its status, so that no row is here in place of another one.
"""

import collections

from lib.journal_format import LIST, MARK, NAME, NAMED, STRING, Journal, Step, edit, leaf, node, spelled

# A run: the program with its words, standard input, the files that it finds by their names, and its status.
Row = collections.namedtuple("Row", "program words text files status", defaults=[{}, 0])

# ---- texts

ODD_RULE = b"cc_library( name='a',srcs=[ \"b.c\",\"a.c\" ] )"
TAKEN = b'cc_library(name="a",srcs=["x.c"],deps=[":y"])\n'
TWO = b'cc_library( name="x" )\n# keep\ncc_binary( name="y" )\n'
COMMENTS = b'cc_library(\n    name # n\n      = "a",\n    deps = [ # why\n        ":b",\n        # end\n    ],\n)\n'
LOADS = b'load("B.bzl", "b")\nload("C.bzl", "c")\nload("A.bzl", "a")\n'
KEPT_LOADS = LOADS.replace(b'load("C', b'# keep here\nload("C')
LABELS = b'cc_library(name="a",deps=["//a/b:b","//a/b","//a/b", # x\n])\n'
CALLS = b'x(srcs=glob(["b","a"]),deps=["c"]+select({"k":["d"]}))'
LISTED = b't(name="a",deps=[":b",":c"])'
BARE = b't(name="a")'
LAID = b't(\n    name = "a",\n    deps = [":x"],\n)\n'
LAID_TWO = b't(\n    name = "a",\n    deps = [\n        ":x",\n        ":z",\n    ],\n)\n'
PAIR = b'a(name="p")\nb(name="q")\n'
MODES = b"a = 1; b = 2; # c\n"

PACKAGE_FILE = "p/BUILD"
PACKAGE = {PACKAGE_FILE: b't(name="a",deps=[])\n'}
LINES = b"# c\n\nadd deps :y|//p:a\ndelete|//p:zz\n"


def plain(number, token):
    """A leaf with no gap before it."""
    return leaf(number, b"", token)


def argument(name, value):
    return node(NAMED, plain(NAME, name), plain(MARK, b"="), value)


# the step back from `deps = [":x"]`, laid out, to `deps=[]` on one line: the parts of the call after its bracket
STEP_BACK = [
    edit(
        [0, 0, 0],
        2,
        5,
        argument(b"name", plain(STRING, b'"a"')),
        plain(MARK, b","),
        argument(b"deps", node(LIST, plain(MARK, b"["), plain(MARK, b"]"))),
        plain(MARK, b")"),
    )
]
# the package after `add deps //p:x` with --journal, and its journal, from which the text before it comes back
KEPT_TEXT = b't(\n    name = "a",\n    deps = [":x"],\n)\n'
KEPT_PACKAGE = {PACKAGE_FILE: KEPT_TEXT, f"{PACKAGE_FILE}.journal": spelled(Journal(b"p", [PACKAGE[PACKAGE_FILE], KEPT_TEXT], 1, 0, [Step(STEP_BACK, b"add deps //p:x")]))}
SORTS = {"BUILD": b'f( name="x" )\n', "a/BUILD.bazel": b'g(name="x",deps=["b","a"])\n', "a/BUILD": b'h(name="x")\n', "b/BUILD": b"x(\n"}

# ---- buildifier: a name, the text, and the status

FORMATTED = [
    ("comments take their places", COMMENTS, 0),
    ("a number before a dot", b"x = 1 .real", 0),
    ("a dot that belongs to the number", b"x = 1.real", 1),
    ("carriage returns in a string", b'x = """a\r\nb"""\r\n', 0),
    ("statements on a line", MODES, 0),
    ("loads with a comment above one", KEPT_LOADS, 0),
    ("loads", LOADS, 0),
    ("labels that repeat a name", LABELS, 0),
    ("sources of genrule", b'genrule(name="g",srcs=["b","a"])', 0),
    ("a list that is left alone", b'cc_library(name="g",\n# do not sort\nsrcs=["b","a"])', 0),
    ("500 levels", b"[" * 497 + b"]" * 497, 0),
    ("501 levels", b"[" * 498 + b"]" * 498, 1),
    ("two comparisons", b"a < b < c", 1),
    ("two strings", b'"a" "b"', 1),
    ("a space before the first token", b" x = 1", 1),
    ("a string that is not closed", b'x = """a', 1),
    ("a call that is not closed", b"cc_library(", 1),
    ("no text", b"\xff", 1),
    ("calls and sums", CALLS, 0),
    ("conditionals", b"x = 1 if a else 2 if b else 3", 0),
    ("a conditional within a condition", b"a if b if c else d else e", 1),
    ("two dots", b"x = 1..real", 0),
    ("a comma at the end", b"x = 1,", 1),
    ("arguments in any order", b"f(a = 1, *b, c, **d,)", 0),
    ("two assignments", b"a = b = c", 1),
    ("a keyword of other files", b"lambda: 1", 1),
    ("a carriage return at the end", b"x = 1\r", 0),
    ("a sign that no token has", b"x = 1$", 1),
    ("a comment after an operator", b"x = (a + # why\nb)", 0),
    ("a comprehension on lines of its own", b"x = [\na for a in b]", 0),
    ("a comment after the last argument", b"f(a, # c\n)", 0),
    ("a comment on its own", b"# a\n\nx = 1", 0),
    ("sources in order", b't(srcs = ["b.c", "a-b", "a.c", ":z", "//x:a", "@r//a", "a"])', 0),
    ("arguments in order", b't(visibility=[],deps=[],tests=[],name="n",alwayslink=1,srcs=[])', 0),
]

# ---- buildozer over standard input: a name, the words, the text, and the status

EDITED = [
    ("a new rule", ["--", "new cc_library a", "-:__pkg__"], b"", 0),
    ("a new rule and back", ["--", "new cc_library a", "undo", "-:__pkg__"], b"", 3),
    ("a value is added", ["--", "add deps :x", "-:a"], ODD_RULE, 0),
    ("a value is added and taken back", ["--", "add deps :x", "undo", "-:a"], ODD_RULE, 3),
    ("a value that is there", ["--", "add srcs a.c", "-:a"], ODD_RULE, 3),
    ("a label that is there", ["--", "add srcs :a.c", "-:a"], ODD_RULE, 3),
    ("a name that is taken", ["--", "rename srcs deps", "-:a"], TAKEN, 2),
    ("undo further than there are texts", ["--", "new cc_library a", "new cc_library b", "undo 3", "-:__pkg__"], b"", 2),
    ("redo after a new text", ["--", "new cc_library a", "new cc_library b", "undo", "new cc_library c", "redo", "-:__pkg__"], b"", 2),
    ("one level too many", ["--", "add deps :x", "-:a"], b'r(name = "a", deps = f(' + b"[" * 494 + b"]" * 494 + b"))", 2),
    ("fields are printed", ["--", "print name kind srcs deps", "-:a"], ODD_RULE, 3),
    ("a pattern is replaced", ["--", r"substitute srcs ^(.*)\.c$ ${1}.cc", "-:a"], ODD_RULE, 0),
    ("a dict of its own", ["--", "dict_add env A:1 B:2", "-:x"], b't(name="x")', 0),
    ("loads that nothing uses", ["--", "fix unusedLoads", "-:__pkg__"], b'load("x.bzl", "a", "b")\na(name = "n")\n', 0),
    ("there and back and there", ["--", "delete", "undo", "redo", "-:x"], TWO, 0),
    ("there and back", ["--", "delete", "undo", "-:x"], TWO, 3),
    ("too far back", ["--", "delete", "undo 2", "-:x"], TWO, 2),
    ("no rule of the name", ["--", "delete", "-:z"], TWO, 2),
    ("no package", ["--", "delete", "-:__pkg__"], TWO, 2),
    ("a dash without the word before it", ["delete", "-:x"], TWO, 1),
    ("no command of the name", ["--", "grow", "-:x"], TWO, 1),
    ("a further operand", ["--", "add deps :x", "-:a"], b't(name="a",deps=select({"k":["d"]}))', 0),
    ("an operand in brackets", ["--", "add deps :x", "-:a"], b't(name="a",deps=A if B else C)', 0),
    ("no list to move from", ["--", "move deps exports *", "-:a"], b't(name="a",deps=select({}))', 2),
    ("a value is moved", ["--", "move deps exports :b", "-:a"], LISTED, 0),
    ("values go", ["--", "remove deps :b :c", "-:a"], LISTED, 0),
    ("no such value", ["--", "remove deps :z", "-:a"], LISTED, 3),
    ("a value for another", ["--", "replace * :b :d", "-:a"], LISTED, 0),
    ("no source of a copy", ["--", "copy deps q", "-:a"], LISTED, 2),
    ("a rule of that name", ["--", "new t a", "-:a"], LISTED, 2),
    ("no rule to be put before", ["--", "new t z before q", "-:a"], LISTED, 2),
    ("a number", ["--", "set timeout 5", "-:a"], BARE, 0),
    ("a kind", ["--", "set kind u", "-:a"], BARE, 0),
    ("a list of one", ["--", "set copts -O2", "-:a"], BARE, 0),
    ("a dict goes with its entry", ["--", "dict_remove env A", "-:x"], b't(name="x",env={"A":"1"})', 0),
    ("an entry comes and goes", ["--", "dict_add env A:1", "dict_remove env A", "-:x"], b't(name="x")', 0),
    ("a load twice", ["--", "new_load //a:b.bzl x y=z", "new_load //a:b.bzl x y=z", "-:__pkg__"], b"", 0),
    ("a comment that is printed", ["--", "comment deps :x why\\ not", "print_comment deps :x", "-:a"], b't(name="a",deps=[":x"])', 0),
    ("the package goes up", ["--", "fix", "-:__pkg__"], b'a(name = "n")\npackage(default_visibility = ["//visibility:public"])\n', 0),
    ("no pattern", ["--", "substitute srcs ( x", "-:a"], ODD_RULE, 1),
    ("the rule on a line", ["--", "delete", "-:%2"], PAIR, 0),
    ("no rule on a line", ["--", "delete", "-:%3"], PAIR, 2),
    ("all rules", ["--", "delete", "-:all"], PAIR, 0),
    ("no rule of the kind", ["--", "delete", "-:%zz"], PAIR, 3),
    ("with a failure before it", ["-k", "--", "rename srcs deps", "add deps :x", "-:a"], TAKEN, 2),
    ("back over a rule", ["--", "delete", "undo", "-:p"], PAIR, 3),
    ("a token for a token", ["--", "set deps :y", "undo", "redo", "-:a"], LAID, 0),
    ("a token between two", ["--", "add deps :y", "undo", "redo", "-:a"], LAID_TWO, 0),
    ("three texts back", ["--", "add deps :y", "set size small", "delete", "undo 3", "-:a"], LAID_TWO, 3),
]  # fmt: skip

# ---- runs over files: a name, the program, its words, standard input, the files, and the status

OVER_FILES = [
    ("a file is formatted", "buildifier", ["f"], b"", {"f": MODES}, 0),
    ("a file is checked", "buildifier", ["--mode=check", "f"], b"", {"f": MODES}, 4),
    ("a file is shown", "buildifier", ["--mode=print_if_changed", "f"], b"", {"f": MODES}, 0),
    ("files of all sorts", "buildifier", ["f", "none", "g", "h"], b"", {"f": MODES, "g": b"x(\n", "h": COMMENTS}, 3),
    ("no text is formatted", "buildifier", ["--mode=check"], b"", {}, 0),
    ("no such mode", "buildifier", ["--mode=diff"], b"", {}, 2),
    ("no such type", "buildifier", ["--type=diff"], b"", {}, 2),
    ("a .bzl file", "buildifier", ["f.bzl"], b"", {"f.bzl": b"def f(x): return [x,\n1] # c\n"}, 0),
    ("a text of a .bzl file", "buildifier", ["--type=bzl"], b"if x: y=1\n", {}, 0),
    ("a package is edited", "buildozer", ["add deps //p:x", "//p:a"], b"", PACKAGE, 0),
    ("a package is shown", "buildozer", ["--stdout", "add deps //p:x", "//p:a"], b"", PACKAGE, 0),
    ("a journal is begun", "buildozer", ["--journal", "add deps //p:x", "//p:a"], b"", PACKAGE, 0),
    ("a journal goes on", "buildozer", ["--journal", "delete", "//p:a"], b"", KEPT_PACKAGE, 0),
    ("a text comes back from a journal", "buildozer", ["--journal", "undo", "//p:a"], b"", KEPT_PACKAGE, 0),
    ("lines of a file", "buildozer", ["-k", "-f", "cmds"], b"", {**PACKAGE, "cmds": LINES}, 2),
    ("lines of standard input", "buildozer", ["-k", "-f", "-"], LINES, PACKAGE, 2),
    ("packages of all sorts", "buildozer", ["-k", "set size small", "//:x", "//a:x", "//b:x", "//none:x"], b"", SORTS, 2),
    ("packages and standard input", "buildozer", ["--", "print name", "set size small", "//:x", "-:p", "//a:x"], PAIR, SORTS, 0),
]  # fmt: skip

ROWS = {name: Row("buildifier", [], text, {}, status) for name, text, status in FORMATTED}
ROWS |= {name: Row("buildozer", words, text, {}, status) for name, words, text, status in EDITED}
ROWS |= {name: Row(*row) for name, *row in OVER_FILES}

# those that keep a journal, which no sample leaves out
KEPT_ROWS = [name for name, row in ROWS.items() if "--journal" in row.words]

# ---- texts past a limit, or right before one: too long to be torn

LONGEST = 67_108_864
LONG_ROWS = {
    "a newline too many": Row("buildifier", [], b"#" + b"a" * (LONGEST - 1), {}, 3),
    "a byte too many": Row("buildifier", [], b"#" + b"a" * LONGEST, {}, 1),
}


def texts():
    """Each text of the rows once, those of files among them, in order."""
    found = [text for row in ROWS.values() for text in [row.text, *row.files.values()]]
    return list(dict.fromkeys(found))
