"""What git says of a folder: the files that it knows, ignores, and that have changed; what a repository's own configuration would run is not run."""
import hashlib
import os
import subprocess

from . import files

# in a hook these say where the repository of the hook is, which need not be the one of the folder
LOCAL = ("GIT_DIR", "GIT_WORK_TREE", "GIT_INDEX_FILE", "GIT_PREFIX", "GIT_OBJECT_DIRECTORY", "GIT_COMMON_DIR")
NO_REPOSITORY = b"not a git repository"
# a repository's own program that watches its files, its hooks, and a folder of files that is a repository without saying so
SAFE = ("-c", "core.fsmonitor=false", "-c", f"core.hooksPath={os.devnull}", "-c", "safe.bareRepository=explicit")
# nothing is written, and no object that is missing is fetched, by a program that the repository names
QUIET = {"LC_ALL": "C", "GIT_OPTIONAL_LOCKS": "0", "GIT_NO_LAZY_FETCH": "1", "GIT_ALLOW_PROTOCOL": "none"}


class GitError(Exception):
    """git is there and refuses to answer; the text is its own."""


def begun(folder, *words, stdin=subprocess.DEVNULL):
    """Starts git in a folder, so that others may run beside it; None where there is no git."""
    environment = {**{name: value for name, value in os.environ.items() if name not in LOCAL}, **QUIET}
    how = {"stdin": stdin, "stdout": subprocess.PIPE, "stderr": subprocess.PIPE, "env": environment}
    try:
        return subprocess.Popen(["git", "-C", folder, *SAFE, *words], **how)
    except FileNotFoundError:
        return None


def ended(process, given=None):
    """The status and standard output of git, which may be given an input; None where there is no git or no repository. Other faults are GitErrors."""
    if process is None:
        return None
    try:
        out, err = process.communicate(given)
    except BaseException:  # a signal that ends the run ends git, too
        process.kill()
        raise
    if process.returncode > 1 or (process.returncode and err):
        if NO_REPOSITORY in err:
            return None
        raise GitError(os.fsdecode(err).strip() or f"git ended with {process.returncode}")
    return process.returncode, out


def call(folder, *words):
    """What `ended` gives of a call."""
    return ended(begun(folder, *words))


def names_in(output):
    """The names of a list that ends each with a NUL byte."""
    return [os.fsdecode(name) for name in output.split(b"\0") if name]


def known(folder):
    """The names of what git knows below a folder: files, links and submodules, some of which may be gone; None where there is no repository,
    or it ignores this very folder. No folder is read for it."""
    ignoring = begun(folder, "check-ignore", "-q", ".")
    listing = begun(folder, "ls-files", "-z", "--cached")
    names, ignored = ended(listing), ended(ignoring)
    if names is None or (ignored is not None and ignored[0] == 0):
        return None
    return names_in(names[1])


def ignored(folder, names):
    """Those of the names below a folder that git ignores."""
    if not names:
        return set()
    process = begun(folder, "check-ignore", "-z", "--stdin", stdin=subprocess.PIPE)
    # (a name that begins with a colon would mean something else)
    answer = ended(process, b"".join(b"./" + os.fsencode(name) + b"\0" for name in names))
    return {name.removeprefix("./") for name in names_in(answer[1])} if answer else set()


def changed_since(folder, revision):
    """A function that says of the name of a file below a folder whether the file differs from a revision, or is new there; None where there
    is no repository. git's own comparison with files would run the filters that a configuration names, so the files are read here."""
    if ".." in revision:
        new = call(folder, "ls-files", "-z", "--others", "--exclude-standard")
        differing = new and call(folder, "diff", "-z", "--name-only", "--relative", "--no-renames", "--diff-filter=d", "--ignore-submodules=all", revision, "--")
        return differing and {*names_in(differing[1]), *names_in(new[1])}.__contains__
    listing = call(folder, "ls-tree", "-r", "-z", revision, "--", ".")
    if listing is None:
        return None
    rows = [row.partition("\t") for row in names_in(listing[1])]
    there = {name: kind.split()[2] for kind, _, name in rows}
    return lambda name: name not in there or is_other(os.path.join(folder, name), there[name])


def is_other(file, number):
    """Whether a file is another one than the object of a number, its line ends aside, or cannot be read."""
    try:
        text = files.content(file, files.MOST_TEXT)
    except OSError:
        return True
    kind = hashlib.sha1 if len(number) == 40 else hashlib.sha256
    return all(kind(b"blob %d\0" % len(each) + each).hexdigest() != number for each in (text, text.replace(b"\r\n", b"\n")))


def own_folder(folder):
    """The folder where git keeps what is of this working tree alone; None where there is no repository, or one elsewhere that doesn't name this tree."""
    try:
        answer = call(folder, "rev-parse", "--show-cdup", "--absolute-git-dir")
        above, _, own = os.fsdecode(answer[1] if answer else b"").rstrip("\n").partition("\n")
        top = os.path.realpath(os.path.join(folder, above))
        return own if own and top in (os.path.dirname(own), named_by(own)) else None
    except GitError:
        return None


def named_by(own):
    """The working tree that such a folder names, as that of a worktree or of a submodule does."""
    try:
        named = os.path.dirname(os.fsdecode(files.content(os.path.join(own, "gitdir"))))
    except OSError:
        named = os.fsdecode(call(os.sep, "config", "--file", os.path.join(own, "config"), "core.worktree")[1]).rstrip("\n")
    return os.path.realpath(os.path.join(own, named)) if named else None
