#!/bin/sh
# Formats each BUILD, WORKSPACE and MODULE.bazel file below a folder: bench/formats.sh FOLDER. Prints the names of those that
# were refused, whose formatted text is formatted to another one, or in which a comment occurs more or less
# often (blanks at its end aside), and how many there were of each; the status is 1 where any was. Names and sizes are those
# that bench/corpus.sh takes. Build the program first (make).
set -eu
folder=${1:?"FOLDER is missing: bench/formats.sh FOLDER"}
program=$(cd "$(dirname "$0")/.." && pwd)/bin/buildifier
[ -x "$program" ] || { echo "bench/formats.sh: bin/buildifier is not there: run make first" >&2; exit 1; }

python3 - "$program" "$folder" <<'FORMATS'
import collections, os, re, subprocess, sys

program, folder = sys.argv[1:]

# a string, which hides a number sign, or a comment
PIECES = re.compile(
    rb'"""(?:[^"\\]|\\.|"(?!""))*"""' rb"|'''(?:[^'\\]|\\.|'(?!''))*'''"
    rb'|"(?:[^"\\\n]|\\.)*"' rb"|'(?:[^'\\\n]|\\.)*'" rb"|#[^\n]*", re.S)


def is_taken(name):
    return re.search(r"BUILD$|BUILD\.|WORKSPACE|MODULE\.bazel$", name)


def formatted(text):
    run = subprocess.run([program], input=text, stdout=subprocess.PIPE, stderr=subprocess.PIPE)
    return run.stdout if run.returncode == 0 else None


def comments(text):
    found = (piece for piece in PIECES.findall(text) if piece.startswith(b"#"))
    return collections.Counter(comment.rstrip(b" \t\r") for comment in found)


counts = collections.Counter()
for path, _, names in sorted(os.walk(folder)):
    for name in sorted(filter(is_taken, names)):
        file = os.path.join(path, name)
        with open(file, "rb") as source:
            text = source.read()
        if len(text) > 67108864:
            continue
        once = formatted(text)
        if once is None:
            what = "refused"
        elif formatted(once) != once:
            what = "formatted to another text"
        elif comments(once) != comments(text):
            what = "with other comments"
        else:
            what = "formatted"
        counts[what] += 1
        if what != "formatted":
            print("%s: %s" % (file, what))
others = sum(counts.values()) - counts["formatted"]
print("%d files formatted, and again to the same bytes, each comment as often; %d not" % (counts["formatted"], others))
sys.exit(1 if others or not counts["formatted"] else 0)
FORMATS
