#!/usr/bin/env python3
"""How fast a text is copied, cut into tokens, parsed, spelled back, viewed as a file value, laid out and formatted, in MB a second, by one run of one program;
and how much memory its tree takes at most while it is made. For two texts of about 2 and 4 MB: the BUILD files below a folder joined, as often as it
takes, or made rules. The goal: twice the text takes at most 2.2 times the time.

    bench/reading.py [FOLDER]

Where go.starlark.net's parser or Bazel's is there, each reads the first text in the same run, and how many times as fast our parser (its tree dropped too) and
our formatting are is printed for each, by the processor's time: theirs is the mean of some seconds, with the collection of garbage, Bazel's after as many
in which its code was compiled. Of the files below the folder only those are joined that all of them read. They are there where
`go` is on the PATH and STARLARK (/usr/share/gocode, as Debian's golang-starlark-dev has it) is a GOPATH with that module, and where `javac` is
on the PATH and BAZEL_JAR (/usr/share/bazel/A-server.jar, as Debian's bazel-bootstrap has it) is a jar with Bazel's parser.
Build the program first (make bin/cases).
"""
import os
import pathlib
import shutil
import subprocess
import sys
import tempfile

from commands import RULE, TOP

PROGRAM = TOP / "bin" / "cases"
SOURCES = TOP / "bench" / "parsers"
SIZES = 2_097_152, 4_194_304
# how many files a parser gets in one call
NAMES = 100


def output(command, **how):
    return subprocess.run(command, stdout=subprocess.PIPE, check=True, text=True, **how).stdout


def other_parsers(scratch):
    """The parsers that are there, each with the words that run it."""
    found = {}
    gopath = os.environ.get("STARLARK", "/usr/share/gocode")
    if shutil.which("go") and pathlib.Path(gopath, "src/go.starlark.net").exists():
        environment = {**os.environ, "GO111MODULE": "off", "GOPATH": gopath, "GOCACHE": str(scratch / "go")}
        output(["go", "build", "-o", scratch / "parse", SOURCES / "parse.go"], env=environment)
        found["go.starlark.net's"] = [scratch / "parse"]
    jar = os.environ.get("BAZEL_JAR", "/usr/share/bazel/A-server.jar")
    if shutil.which("javac") and pathlib.Path(jar).exists():
        output(["javac", "-proc:none", "-cp", jar, "-d", scratch, SOURCES / "Parse.java"])
        found["Bazel's"] = ["java", "-cp", f"{scratch}:{jar}", "Parse"]
    return found


def build_files(folder, parsers):
    """The BUILD files below a folder that each of the other parsers reads."""
    names = sorted(file for file in pathlib.Path(folder).rglob("*") if file.is_file() and file.name.endswith(("BUILD", "BUILD.bazel")))
    for command in parsers.values():
        accepted = [output([*command, "accepts", *names[at : at + NAMES]]).splitlines() for at in range(0, len(names), NAMES)]
        names = [pathlib.Path(name) for some in accepted for name in some]
    texts = [text if text.endswith(b"\n") else text + b"\n" for text in map(pathlib.Path.read_bytes, names) if text]
    return [text for text in texts if subprocess.run([PROGRAM, "tree"], input=text, capture_output=True).returncode == 0]


def joined(texts, limit):
    """The texts one after the other, over and over, as long as they fit."""
    pieces, size = [], 0
    while size + len(texts[len(pieces) % len(texts)]) <= limit:
        pieces.append(texts[len(pieces) % len(texts)])
        size += len(pieces[-1])
    return b"".join(pieces)


def printed(path, *words):
    with path.open("rb") as text:
        return output([PROGRAM, *words], stdin=text)


def main():
    if not PROGRAM.exists():
        sys.exit("bench/reading.py: bin/cases is not there: run make bin/cases first")
    with tempfile.TemporaryDirectory() as folder:
        scratch = pathlib.Path(folder)
        parsers = other_parsers(scratch)
        texts = build_files(sys.argv[1], parsers) if sys.argv[1:] else [(RULE % (i, i, i, i) + "\n").encode() for i in range(1000)]
        if not texts:
            sys.exit("bench/reading.py: there is no BUILD file below the folder")
        times = []
        for number, limit in enumerate(SIZES):
            path = scratch / f"text{number}"
            path.write_bytes(joined(texts, limit))
            size = path.stat().st_size
            times.append({work: int(best) / 1e9 for work, best in map(str.split, printed(path, "time").splitlines())})
            for work, seconds in times[-1].items():
                print(f"{work:<6} {size:8} bytes: {seconds:.4f} s, {size / seconds / 1e6:.1f} MB/s")
        for work in ("lex", "parse", "format"):
            print(f"{work:<6} twice the text: {times[1][work] / times[0][work]:.2f} times the time (goal: at most 2.2, on an idle machine)")
        for name, command in parsers.items():
            seconds = int(output([*command, "time", scratch / "text0"])) / 1e9
            print(f"{name} parser takes {seconds:.4f} s of the processor: our parser is {seconds / times[0]['tree']:.2f}, our formatting {seconds / times[0]['format']:.2f} times as fast")
        copied, tree = (1024 * int(printed(path, "peak", work)) for work in ("copy", "tree"))
        print(f"tree   {size:8} bytes: peak {tree / 1e6:.1f} MB, and {copied / 1e6:.1f} MB where the text is only copied; "
              f"so parse alone takes {(tree - copied + size) / size:.1f} bytes a byte")


main()
