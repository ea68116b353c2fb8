"""Texts that are laid out oddly, and the commands and targets from which runs over them are made."""

# each has a rule x or y, as far as it has rules
TEXTS = {
    "no text": b"",
    "empty lines": b"\n\n \n\t\n",
    "comments alone": b"# one\n\n  # two\n#three",
    "laid out": b'cc_library(\n    name = "x",\n    srcs = ["a.c"],\n    deps = [\n        ":a",\n        ":b",\n    ],\n)\n\ncc_test(name = "y")\n',
    "tabs and spaces": b"cc_library(\tname = 'x',\n  \t srcs=[ \"b.c\",\t'a.c' ] )\t\n\n\n\n\ncc_test( name ='y' , deps=[':x'\t, ':b'])   \n",
    "ends of lines with carriage returns": b'cc_library(\r\n  name = "x",\r\n  deps = [":b",":a"], # why\r\n)\r\n# end\r\n\r\ncc_test(name="y",size = "small")\r\n',
    "no newline at the end": b'cc_library( name="x" ,deps=[":a"] )\ncc_test(name="y") # last',
    "comments everywhere": b"""# file

# above
cc_library( # at the bracket
    # above the name
    name = "x", # name
    deps = [ # at the list
        # above a
        ":a", # a
        ":b"
        # below
        , # comma
        # end of the list
    ], # after the list
    # end of the rule
) # after

# between

cc_test(name="y") # y
# end
""",
    "select and sums": b"""cc_library(name="x", deps = [":a"] + select({
    "//c:d": [":b"], # d
    "//conditions:default": [],
}) + OTHERS, srcs = glob(["*.c"], exclude=["b.c"]), copts=select({"//c:d":["-O2"]}))
cc_test(name="y",deps=DEPS,srcs=["y.c"]if a else[])
""",
    "dicts": b"""cc_test(name="x",env={"A":"1", # one
  'B' : "2","C":[ "3" ]},size="small",
  substitutions={}, more={a:b for a in c})
cc_test(name="y", env = dict(A="1"))
""",
    "loads": b"""'''doc'''
load("//:b.bzl","my_rule","other",third="fourth")
x = 1
load('//:a.bzl', "unused") # keep
my_rule(name="x", deps=[":a"])
package(default_visibility=["//visibility:public"])
load(":b.bzl", "unused_too")
cc_library(name = "y", deps = third)
""",
    "many on a line": b'x=1;cc_library(name="x",deps=[":b"]);y=[x,2];cc_test(name="y") ; z = -1  # z\n',
    "newlines that are escaped": b'cc_library(name \\\n = "x", deps = \\\r\n[":a" \\\n, ":b"])\n\\\nx = a \\\n + b\ncc_test(name="y")\n\\\n',
    "strings of all kinds": "cc_library(name=\"x\",srcs=['a.c',\"\"\"b.c\"\"\",r'c\\.c',\"d\\\"d\",\"\u00e9\u4e16.c\", 'it\\'s'],deps=['//a/b:b','@r//c','\\072a'])\ncc_test(name='y',linkopts='-l')\n".encode(),
    "marks that steer": b"""cc_library(name="x",
    srcs = [ # keep sorted
        "b.c", "a.c"],
    deps = [
        # do not sort
        ":b",":a",":b"])
# buildifier: leave-alone
cc_test( name="y",  deps=[ ":b",":a" ] )
""",
    "rules that are alike": b'cc_library(name="x")\ncc_library(name="x",deps=[":a"])\nnative.cc_library(name="x",deps="a")\nf()\ng(name=x)\ncc_test(name="y",name="y")\n',
    "deep brackets": b"cc_library(name='x',deps=[[[(':a',),[]]],{'k':[{'l':(1,)}]}],args=f(g(h(1,*a,**b))))\ncc_test(name='y',size=('small'))\n",
}  # fmt: skip

# those from which one is taken by chance; more often one with rules
NAMES = [name for name, text in TEXTS.items() for _ in range(4 if b"(" in text else 1)]

# A file so long that its value is kept from one command to the next; the last two rules are equal, the one after the other.
MANY = "\n".join(
    ['load("//:b.bzl", "b")\n', *(f'cc_library(\n    name = "r{i}",\n    deps = [":a"],\n)\n' for i in range(520)), *['f(name = "twin")\n'] * 2]
)
TEXTS["many rules"] = MANY.encode()
# the line of the first of the two
TWIN = MANY.count("\n", 0, MANY.index("f(name")) + 1

TARGETS = ["-:x"] * 6 + ["-:y"] * 3 + ["-:all"] * 4 + ["-:*", "-:%cc_library", "-:%cc_test", "-:%1", "-:%4", "-:__pkg__", "-:none"]

# ---- commands from which lists are made: each is taken by the program, though mostly refused on some of the texts

COMMANDS = """
new cc_test z
new cc_library a.b before x
new native.cc_test w after y
new f x
format
delete
set deps :y
set deps //-:a :b
set testonly True
set srcs a\\ b.c
set kind native.cc_binary
set size small
set name y
set_if_absent size large
set_if_absent deps :c
add deps :b //lib:a
add deps :y :x y
add srcs c.c
add tags odd\\ tag "q"
remove deps
remove deps :a
remove srcs a.c b.c c.c
remove *
remove size
remove * :a b.c
remove_if_equal size small
remove_if_equal deps :b
replace deps :a :z
replace * :b //lib:b
replace size small large
substitute srcs (.*)\\.c$ $1.cc
substitute * ^(:?)a$ ${1}zz
substitute deps b bb
move deps runtime_deps :a
move deps exports *
move srcs hdrs *
rename deps data
rename data deps
rename size timeout
copy deps x
copy deps y
copy_no_overwrite size x
copy_no_overwrite srcs x
dict_add env C:3 A:9
dict_add substitutions k:v:w
dict_set env A:2 B:3
dict_set env D:\\ d
dict_remove env A C
dict_remove env A B C D
dict_replace_if_equal env A 1 2
dict_replace_if_equal substitutions k v True
dict_list_add lists K a //lib:b
dict_list_add env C x
set_select deps //c:d :a //conditions:default :z
set_select size //c:d 1
comment why\\ not
comment deps because
comment deps :a the\\ first
comment env \u00e9\u4e16
remove_comment
remove_comment deps
remove_comment deps :a
print_comment
print_comment deps
print_comment deps :a
print
print name kind deps
print rule
print startline size env
new_load //:defs.bzl a my_b=b
new_load :b.bzl unused_too new_one
replace_load :b.bzl a my_b=b
substitute_load b\\.bzl$ c.bzl
new f w after __pkg__
fix
fix unusedLoads
fix movePackageToTop
""".strip().splitlines()

# those that are seldom refused, and mostly leave another text
BOLD = [command for command in COMMANDS if command.split()[0] in ("new", "set", "add", "dict_set", "comment", "new_load")]

UNDOS = ["undo", "undo", "undo", "undo 1", "undo 2", "undo 003", "undo 9"]
REDOS = ["redo", "redo", "redo", "redo 1", "redo 2", "redo 4"]
