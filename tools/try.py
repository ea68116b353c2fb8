#!/usr/bin/env python3
"""Runs both programs over a file, not proved: each as rt try builds it of the sources as they are, side by side, and each is shown as soon
as it has ended, buildifier first.

    tools/try.py [FILE]

Without FILE it is what make shows at its end, of examples/BUILD. Of a file of one's own buildifier shows its text formatted, and buildozer the
kind and the name of each of its rules; of a .bzl file buildifier alone, since buildozer edits BUILD files. Programs get the file on
standard input, so it stays as it is. The status is 0 where each program ran to its end, whatever its own status, which is shown where it is not 0.
"""
import concurrent.futures
import pathlib
import re
import subprocess
import sys
import time

from crates import TOP

EXAMPLE = "examples/BUILD"
NOT_PROVED = """Not proved: make proves them. rt try compiles both programs of the sources as they are, which takes one
to two minutes for buildifier and two to four for buildozer; nothing of it is kept."""
# the last lines of rt try where the program ran to its end; above them is what it wrote to standard error
ENDED = re.compile(rb"^(?:(?:interpreter|checked|races): .*\n)*run=ended status=(\d+) .*\n\Z", re.MULTILINE)


def runs(name):
    """What is run over a file: each program with its words."""
    if name == EXAMPLE:
        return [("buildifier", []), ("buildozer", ["--", "delete", "-:middle"])]
    if name.endswith(".bzl"):
        return [("buildifier", ["--type=bzl"])]
    return [("buildifier", []), ("buildozer", ["--", "print kind name", "-:all"])]


def tried(program, words, text):
    """What rt try leaves: its status and both outputs."""
    command = ["rt", "try", *(["--", *words] if words else [])]
    return subprocess.run(command, cwd=TOP / "crates" / program, input=text, capture_output=True)


def shown(name, program, words, left, seconds):
    """Prints what a program left, and gives whether it ran to its end."""
    line = " ".join([program, *(f"'{word}'" if " " in word else word for word in words)])
    print(f"\n{line} < {name}    (not proved; after {seconds} seconds)\n", flush=True)
    ended = ENDED.search(left.stderr)
    sys.stdout.buffer.write(left.stdout + left.stderr[: ended.start() if ended else None])
    sys.stdout.flush()
    if not ended:
        print(f"{program} was not run", flush=True)
    elif int(ended[1]):
        print(f"status {int(ended[1])}", flush=True)
    return bool(ended)


def main():
    name = sys.argv[1] if sys.argv[1:] else EXAMPLE
    text, start = (pathlib.Path(name) if sys.argv[1:] else TOP / name).read_bytes(), time.monotonic()
    if name == EXAMPLE:
        print(f"\n{name}:\n\n{text.decode()}", end="")
    print(f"\n{NOT_PROVED}", flush=True)
    with concurrent.futures.ThreadPoolExecutor() as lanes:
        going = {lanes.submit(tried, program, words, text): (program, words) for program, words in runs(name)}
        ended = [shown(name, *going[run], run.result(), round(time.monotonic() - start)) for run in concurrent.futures.as_completed(going)]
    return 0 if all(ended) else 1


if __name__ == "__main__":
    try:
        sys.exit(main())
    except OSError as fault:
        sys.exit(f"{fault.filename}: {fault.strerror}")
    except KeyboardInterrupt:
        sys.exit(130)
