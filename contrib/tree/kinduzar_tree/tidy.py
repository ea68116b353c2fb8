"""buildifier-tree: formats, checks or compares the BUILD files below folders."""
import os
import signal
import stat

from . import git, walk
from .files import MOST_TEXT, content, given
from .ignored import IGNORE, SETTINGS
from .names import is_formatted, is_text
from .processes import NOT_RUN, PROCESSES, Pool, batches, program, room_beside, worked
from .refusals import Refusals, by_name, go_on, lines_of, summary, without_notes
from .running import STOPPED, run_as
from .terminal import shown
from .words import Usage, count, read

NAME = "buildifier-tree"
HELP = """usage: buildifier-tree [OPTION..] [PATH..]

Formats the BUILD files below folders, the working directory if none is named, with many processes of buildifier at once. What git
ignores and what .bazelignore names is left out; a file that is named itself is always taken.

  --mode=fix          rewrites each file that differs (the default)
  --mode=check        prints FILE # reformat for each file that differs
  --mode=diff         prints what formatting would change
  --type=TYPE         what the files are: auto, build or bzl, as for buildifier
  --bzl               takes .bzl files too
  --diff-from=REV     takes only files that changed since this revision of git
  --from=FILE         takes the files that are named in a file, one a line or ended by NUL bytes; - is standard input
  --processes=N       how many processes run at once
  --quiet             prints no summary
  --help, --version

0 formatted, 1 a file is not accepted, 2 usage, 3 a file could not be read or written, 4 check or diff found a difference."""
FLAGS = ("--bzl", "--quiet", "--help", "--version")
VALUED = ("--mode", "--type", "--diff-from", "--from", "--processes")
MODES, TYPES = ("fix", "check", "diff"), ("auto", "build", "bzl")
USAGE, UNREAD, REFUSED, DIFFERS, WELL = 2, 3, 1, 4, 0
# what a run of buildifier that has tried all of its files ends with, and how lines end on what could not be tried
TRIED = (WELL, REFUSED, UNREAD, DIFFERS)
UNTRIED = (": cannot open", ": cannot write", "not UTF-8")


# ---- which files


def files_of(paths, options, refusals):
    """The files to be formatted, each once, by the name that is shown, with what the system said of it, sorted; what can't be read is refused."""
    files, seen = {}, set()
    for path in paths:
        for name, row in files_at(path, lambda name: is_formatted(name, "--bzl" in options), options.get("--diff-from"), refusals):
            # below one path no file is met twice
            place = name if len(paths) == 1 else os.path.join(os.path.realpath(os.path.dirname(name) or "."), os.path.basename(name))
            if place not in seen:
                seen.add(place)
                files[name] = row
    for name in [name for name in files if not is_text(name)]:
        del files[name]
        refusals.add(name, [f"{name}: the name is not UTF-8"])
    return dict(sorted(files.items()))


def files_at(path, wanted, revision, refusals):
    """The files at a path: it, or those below it; with a revision only those that changed since then."""
    try:
        row = os.stat(path)
    except OSError:
        refusals.add(path, [f"{path}: cannot open"])
        return []
    if not stat.S_ISDIR(row.st_mode):
        folder, name = os.path.split(path)
        return [(path, os.lstat(path))] if revision is None or changes(folder or os.curdir, revision)(name) else []
    found = walk.below(path, wanted)
    refusals.notes += [walk.FOREIGN.format(name) for name in found.foreign]
    for name, why in found.closed.items():
        refusals.add(joined(path, name), [f"{joined(path, name)}: {why}"], is_unread=True)
    files = found.files
    if revision is not None:
        is_changed, is_apart = changes(path, revision), walk.within_one_of(found.inner.__contains__)
        files = {name: row for name, row in files.items() if not is_apart(name) and is_changed(name)}
    return [(joined(path, name), row) for name, row in files.items()]


def joined(path, name):
    """The name that is shown for a file below a path."""
    return name if path == os.curdir and name else os.path.join(path, name) if name else path


def changes(folder, revision):
    is_changed = git.changed_since(folder, revision)
    if is_changed is None:
        raise Usage(f"--diff-from: {folder} is in no repository of git")
    return is_changed


def listed_in(file):
    """The names in a file: ended by NUL bytes where there is one, else a line each."""
    try:
        text = given(file)
    except OSError as error:
        raise Usage(f"{file}: {error.strerror}") from error
    return [os.fsdecode(name) for name in text.split(b"\0" if b"\0" in text else b"\n") if name]


# ---- one batch


class Batch:
    """What came of some files: what goes to standard output, the names that differ, what was refused, what was noted, the statuses, and the
    files that a run that was stopped had not reached, or may not have."""

    def __init__(self):
        self.out, self.differing, self.refused, self.notes, self.statuses, self.rest = [], [], {}, [], set(), []
        self.lack = ""  # why no process could be started


class Formatter:
    """Runs buildifier on batches of files."""

    def __init__(self, pool, path, options, files):
        self.pool, self.files = pool, files
        self.mode = options.get("--mode", "fix")
        self.words = [path, f"--type={options.get('--type', 'auto')}"]

    def run(self, mode, names):
        return self.pool.call([*self.words, f"--mode={mode}", "--", *names])

    def batch(self, names):
        """Formats, checks or compares files."""
        done = Batch()
        self.add(done, names)
        return done

    def add(self, done, names):
        ended = self.run("fix" if self.mode == "fix" else "check", names)
        if ended.status == NOT_RUN:
            done.rest += names
            done.lack = ended.how()
            return
        if ended.status not in TRIED:
            self.add_alone(done, names, ended)
            return
        done.statuses.add(ended.status)
        done.notes, err = without_notes(ended.err)
        refused = by_name(err, {os.fsencode(f"{shown(name)}:"): name for name in names})
        done.refused.update({name or names[0]: lines for name, lines in refused.items()})
        done.differing += self.rewritten(names) if self.mode == "fix" else told(ended.out, names)
        if self.mode == "check":
            done.out.append(ended.out)
        if self.mode == "diff":
            self.compare(done)

    def add_alone(self, done, names, ended):
        """What is done where a process ended in a way of its own, as by a signal: each of its files gets one to itself."""
        if self.pool.is_ending:
            done.differing += self.rewritten(names) if self.mode == "fix" else []
            done.rest += [name for name in names if name not in done.differing]
        elif len(names) > 1:
            for name in names:
                self.add(done, [name])
        else:
            done.statuses.add(UNREAD)
            done.refused[names[0]] = [*lines_of(ended.err), f"{names[0]}: buildifier {ended.how()}"]

    def rewritten(self, names):
        """The files that are others than before: each was replaced."""
        return [name for name in names if is_other(name, self.files[name])]

    def compare(self, done):
        """Adds what formatting would change."""
        for name in done.differing:
            try:
                old, ended = content(name, MOST_TEXT), self.run("print_if_changed", [name])
            except OSError:
                ended = None
            # one that is gone, or is as it is to be, by now
            if ended and ended.status in TRIED:
                done.out += [self.pool.difference(name, name, ended.out)] if ended.out or not old.strip() else []
            else:
                done.refused[name] = [f"{name}: cannot open"]


def is_other(name, before):
    try:
        now = os.lstat(name)
    except OSError:
        return False
    return (now.st_ino, now.st_mtime_ns, now.st_size) != (before.st_ino, before.st_mtime_ns, before.st_size)


def told(out, names):
    """The files that a check names, which it does in their order."""
    found, at = [], 0
    for name in names:
        line = os.fsencode(name) + b" # reformat\n"
        if out.startswith(line, at):
            found.append(name)
            at += len(line)
    return found


# ---- the run


class Run:
    """A run over files: what came of them so far."""

    def __init__(self, options, screen):
        self.options, self.screen, self.refusals = options, screen, Refusals()
        self.mode = options.get("--mode", "fix")
        self.differing = self.same = 0
        self.statuses = set()
        self.rest = []
        self.processes = count(options["--processes"], "--processes") if "--processes" in options else PROCESSES

    def over(self, files, path):
        """Formats the files, and gives the signal that stopped it, or None."""
        with Pool(min(self.processes, max(len(files), 1))) as pool:
            formatter = Formatter(pool, path, self.options, files)
            tasks = list(batches(list(files), pool.processes, str, room_beside(formatter.words)))
            for names, batch in worked(pool, formatter.batch, tasks, self.screen, "file"):
                if batch:
                    self.take(names, batch)
                else:
                    self.rest += names
            return pool.signal

    def take(self, names, batch):
        self.differing += len(set(batch.differing) - set(batch.refused))
        self.same += len(set(names) - set(batch.differing) - set(batch.refused) - set(batch.rest))
        self.statuses |= batch.statuses
        self.rest += batch.rest
        self.refusals.notes += batch.notes
        if batch.lack:
            self.refusals.notes.append(f"{NAME}: buildifier {batch.lack}")
            self.statuses.add(UNREAD)
        for name, lines in batch.refused.items():
            self.refusals.add(name, lines)
        for piece in batch.out:
            self.screen.put(piece if isinstance(piece, bytes) else self.screen.coloured(piece))

    def end(self, stopped):
        """Writes what was refused, the summary, and how to go on; gives the status."""
        self.refusals.tell(self.screen)
        if self.screen.is_broken:
            self.screen.say("<stdout>: cannot write")
        if "--quiet" not in self.options:
            self.screen.say(self.summary())
        again = sorted({os.path.dirname(name) or os.curdir if os.path.basename(name) in (IGNORE, SETTINGS) else name for name in [*self.refusals.lines, *self.rest]})
        if stopped is not None:
            self.screen.say(STOPPED.format(signal.Signals(stopped).name))
        elif again and self.differing + self.same and "--quiet" not in self.options:
            go_on(self.screen, [NAME, *self.words()], again)
        return self.status()

    def summary(self):
        does = ("reformatted", "left unchanged") if self.mode == "fix" else ("would be reformatted", "already formatted")
        parts = [(self.differing, does[0]), (self.same, does[1]), (len(self.refusals), "refused"), (len(self.rest), "not begun")]
        return summary(parts) or "no BUILD files were found"

    def words(self):
        """The options that the command line to go on has."""
        return [f"{name}={self.options[name]}" for name in ("--mode", "--type", "--processes") if name in self.options]

    def status(self):
        if UNREAD in self.statuses or self.screen.is_broken or self.refusals.is_unread or self.refusals.has_end(*UNTRIED):
            return UNREAD
        if self.refusals:
            return REFUSED
        return DIFFERS if self.differing and self.mode != "fix" else WELL


def check_words(options, operands):
    for name, known in (("--mode", MODES), ("--type", TYPES)):
        if options.get(name, known[0]) not in known:
            raise Usage(f"no {name[2:]}: {options[name]}; there are {', '.join(known)}")
    if options.get("--diff-from", "HEAD").startswith("-"):
        raise Usage(f"--diff-from: no revision: {options['--diff-from']}")
    row = os.fstat(0)
    has_text = stat.S_ISREG(row.st_mode) and row.st_size > 0 and os.lseek(0, 0, os.SEEK_CUR) == 0
    if has_text and not operands and "--from" not in options:
        raise Usage("standard input is a file: for that text buildifier < FILE, for the working directory buildifier-tree .")


def run(words, screen):
    """Runs the command, and gives its status and the signal that stopped it."""
    options, operands = read(words, FLAGS, VALUED)
    if "--help" in options:
        screen.put(HELP.encode() + b"\n")
        return WELL, None
    path = program("buildifier")
    if path is None:
        raise Usage("buildifier is neither beside this command nor on the PATH")
    if "--version" in options:
        os.execv(path, [path, "--version"])
    check_words(options, operands)
    this = Run(options, screen)
    paths = [*operands, *listed_in(options["--from"])] if "--from" in options else operands or [os.curdir]
    stopped = this.over(files_of(paths, options, this.refusals), path)
    return this.end(stopped), stopped


def main():
    """The command; gives its status."""
    return run_as(NAME, run, USAGE, UNREAD)
