#!/usr/bin/env python3
"""Prints the version of these sources: its word, by which the archive is called, and its day, by which the pages are dated.

The version is that which `--version` prints, the constant VERSION of bz_streams. In a repository of git whose present commit has no tag of
that name, the beginning of the commit's name follows it, as 1.0.0-4f55500; where files that git keeps were changed since, so does
`-changed`. The day is that of the present commit, elsewhere that of README.md.
"""
import datetime
import re
import subprocess

from blocks import TOP

# where the programs have it
SOURCE = TOP / "crates" / "bz_streams" / "src" / "lib.rt"
CONSTANT = re.compile(r'^pub const VERSION: &str = "([^"]+)";$', re.MULTILINE)


def git(*words):
    """What git says of the repository that begins in this folder; nothing where it is none or git is not there."""
    command = ["git", "--no-optional-locks", "-C", str(TOP), "-c", f"safe.directory={TOP}", *words]
    try:
        run = subprocess.run(command, stdin=subprocess.DEVNULL, stdout=subprocess.PIPE, stderr=subprocess.DEVNULL, text=True)
    except OSError:
        return ""
    return run.stdout.strip() if run.returncode == 0 else ""


def day_of(seconds):
    return datetime.datetime.fromtimestamp(seconds, datetime.timezone.utc).strftime("%Y-%m-%d")


def version():
    """The word of the version, and its day."""
    word = CONSTANT.search(SOURCE.read_text())[1]
    seconds = git("log", "-1", "--format=%ct") if (TOP / ".git").exists() else ""
    if not seconds:
        return word, day_of((TOP / "README.md").stat().st_mtime)
    if word not in git("tag", "--points-at", "HEAD").split():
        word += f"-{git('rev-parse', '--short', 'HEAD')}"
    return word + ("-changed" if git("status", "--porcelain", "--untracked-files=no") else ""), day_of(int(seconds))


if __name__ == "__main__":
    print(*version())
