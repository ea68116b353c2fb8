"""buildozer-tree: buildozer over many packages, targets with `...`, and the undo of a whole run."""
import itertools
import os
import signal
import tempfile
import time

from . import git, state
from .edit import FAILED, SAME, WELL, Editor
from .files import digest_of, given
from .names import root_above
from .processes import PROCESSES, Pool, Stopped, batches, program, stops, worked
from .refusals import MOST_NAMES, Refusals, summary
from .running import run_as
from .runs import LISTED, UNDONE, Runs
from .targets import line_of, lines_in, place, written
from .terminal import command_line, counted, shown
from .trial import Labels, Trial
from .undo import Moves
from .walk import FOREIGN
from .words import Usage, count, read

NAME = "buildozer-tree"
HELP = """usage: buildozer-tree [OPTION..] COMMAND.. TARGET..
       buildozer-tree undo [RUN], redo [RUN], runs, journal TARGET..

Runs buildozer on many packages, with many processes at once, in the root of the workspace that the working directory is in. A target
may have ... for all packages below one: //a/...:all, //...:%cc_library, //a/...:x, //a/... for the rule of each package's own name.

  -k                  goes on after a failure
  -f FILE             reads the operands from the lines of a file, - for standard input
  --diff              prints what would change, and leaves the files
  --stdout            prints the new texts, and leaves the files
  --labels            has print begin each line with //package:name
  --quiet             prints no lines of files that were written; given twice, no summary either
  --journal           keeps FILE.journal beside each file, and what `undo` needs
  --types=KIND,..     takes only rules of these kinds
  --profile=PROFILE   own or bazelbuild, as for buildozer
  --state=DIR         keeps what `undo` needs there, and not in .git
  --processes=N       how many processes run at once
  --help, --version

undo takes back the last run with --journal in all packages that it changed, redo does it again, runs lists the last ten.
0 something changed, 3 nothing did, 2 something failed, 1 usage."""
FLAGS = ("-k", "--diff", "--stdout", "--labels", "--quiet", "--journal", "--help", "--version")
VALUED = ("-f", "--types", "--profile", "--state", "--processes")
PASSED = ("-k", "--stdout", "--journal")
# commands that print what no label is for; options of which one is given at a time, and none with a list of journals
UNLABELLED, UNLISTED = ("print_comment", "journal"), ("--diff", "--stdout", "--labels")
USAGE, OF_RUNS = 1, ("undo", "redo", "runs")


class Request:
    """The words of a command line: options, operands, and where they are meant."""

    def __init__(self, words):
        self.options, self.operands = read(words, FLAGS, VALUED, repeated=("--quiet",))
        self.words, self.line = words, command_line([NAME, *words])
        self.processes = count(self.options["--processes"], "--processes") if "--processes" in self.options else PROCESSES
        self.kinds = [kind for kind in self.options.get("--types", "").split(",") if kind]
        self.here, self.foreign = os.path.realpath(os.curdir), []
        self.root = root_above(self.here, self.foreign) or self.here
        self.package = "" if self.here == self.root else os.path.relpath(self.here, self.root)
        self.flags = [flag for flag in PASSED if flag in self.options]
        self.flags += [f"--profile={self.options['--profile']}"] if "--profile" in self.options else []
        self.quiet = self.options.get("--quiet", 0)

    def has(self, option):
        return option in self.options

    def of_runs(self):
        """Whether the operands are a command on runs: a word of these, and a number at most."""
        word, *numbers = self.operands or [""]
        are_numbers = all(text.isascii() and text.isdigit() for text in numbers)
        return word in OF_RUNS and "-f" not in self.options and are_numbers and len(numbers) <= (word != "runs")

    def lines(self):
        """The lines of operands, and the words and standard input with which buildozer says whether they are some."""
        if "-f" not in self.options:
            line = line_of(self.operands, self.package)
            return [line], (["--", *line.commands, *map(str, line.targets)], b"")
        if self.operands:
            return [], (["-f", "-", "--", *self.operands], b"")
        try:
            text = given(self.options["-f"])
        except OSError as error:
            raise Usage(f"{self.options['-f']}: {error.strerror}") from error
        return lines_in(text, self.package), (["-f", "-"], text)

    def lists_journals(self):
        """Whether journals are listed for people; buildozer's own list has the same in full, with --journal."""
        return self.operands[:1] == ["journal"] and not {"-f", "--journal", *UNLISTED} & set(self.options)

    def is_trial(self):
        """Whether nothing is written where the packages are."""
        return self.has("--diff") or self.has("--stdout")

    def check(self, lines):
        """Raises Usage where options don't fit the operands."""
        if sum(map(self.has, UNLISTED)) > 1:
            raise Usage("one of --diff, --stdout and --labels at a time")
        if self.has("--labels") and any(command.split(" ")[0] in UNLABELLED for line in lines for command in line.commands):
            raise Usage(f"--labels is for print, and not for {' or '.join(UNLABELLED)}")

    def runs(self, is_needed=True):
        """Where runs are kept; None where there is no place, or Usage is raised where it is needed."""
        folder = state.folder_for(self.root, self.options.get("--state"))
        if folder is None and is_needed:
            raise Usage("what undo needs is kept in .git, and there is none of this tree: give --state=DIR")
        return folder and Runs(folder, self.root)


def usage_of(path, words, text, request):
    """What buildozer says of the operands where they are none, by a run in an empty folder; None where they are."""
    with tempfile.TemporaryDirectory() as empty, Pool(1) as pool:
        ended = pool.call([path, *request.flags, *words], text, empty)
        if pool.signal is not None:
            raise Stopped(pool.signal)
    file = request.options.get("-f", "")
    return ended.err.replace(b"<stdin>:", os.fsencode(file) + b":") if ended.status == USAGE else None


class Run:
    """A run of buildozer over packages."""

    def __init__(self, request, path, screen):
        self.request, self.path, self.screen = request, path, screen
        self.refusals = Refusals()
        self.fixed, self.tried, self.lacking, self.rest = set(), 0, 0, []
        self.statuses, self.after = set(), {}
        self.has_printed = False
        self.plan = self.record = None
        self.unkept = []  # the files of which a text before or after the run isn't known

    def over(self, lines):
        """Runs the commands of the lines, and gives the signal that stopped it, or None."""
        with Pool(self.request.processes) as pool:
            kind = Trial if self.request.is_trial() else Labels if self.request.has("--labels") else Editor
            editor = kind(pool, self.path, self.request.root, self.request.flags)
            with stops():
                self.plan = editor.plan(lines, self.request.kinds, self.refusals)
            if self.plan.missing and not self.request.has("-k"):
                self.rest = list(self.plan.steps)
            elif self.request.has("--journal") and not self.request.is_trial():
                self.edit_kept(editor)
            else:
                self.edit(editor)
            return pool.signal

    def edit_kept(self, editor):
        """Edits, and keeps what was there before and after it."""
        runs = self.request.runs()
        before = {name: digest_of(os.path.join(self.request.root, name)) for name in self.plan.files()}
        commands = sorted({command for steps in self.plan.steps.values() for line, _ in steps for command in line.commands})
        with runs.begun(self.request.line, commands, before) as record:
            self.edit(editor)
            self.unkept = runs.end(record, self.after)
        self.record = record if record.files else None

    def edit(self, editor):
        """Edits the packages, and takes in what comes of them in their order; a failure is the last one begun, unless -k is given."""
        steps = list(self.plan.steps.items())
        tasks = list(batches(steps, (len(steps) or 1) if self.request.has("--labels") else editor.pool.processes, lambda step: step[0]))

        def batch_of(task):
            batch = editor.batch(task)
            if batch.status == FAILED and not self.request.has("-k"):
                editor.pool.close()
            return batch

        for task, batch in worked(editor.pool, batch_of, tasks, self.screen, "package"):
            if batch:
                self.tried += len(task) - len(batch.untried) - len(batch.lacking)
                self.lacking += len(batch.lacking)
                self.take(batch)
            else:
                self.rest += [package for package, _ in task]
        if editor.only and steps and not self.rest:
            self.plan.count(editor.only, len(steps) - self.lacking, len(steps))

    def take(self, batch):
        self.after.update(batch.after)
        self.screen.put(batch.out)
        self.has_printed |= bool(batch.out)
        for note in batch.notes:
            self.screen.say(note)
        if batch.lack:
            self.refusals.notes.append(f"{NAME}: buildozer {batch.lack}")
        for name in batch.fixed if not (self.request.quiet or self.request.is_trial()) else []:
            self.screen.say(f"fixed {name}")
        for name, pieces in batch.texts:
            heading = os.fsencode(f"==> {shown(name)} <==\n") if self.request.has("--stdout") and len(self.plan.steps) > 1 else b""
            self.screen.put(heading + self.screen.coloured(pieces))
        self.fixed |= set(batch.fixed)
        self.rest += batch.untried
        self.statuses.add(batch.status)
        for package, lines in batch.refused.items():
            self.refusals.add(package, lines)

    def status(self):
        if FAILED in self.statuses or self.refusals or self.unkept or self.screen.is_broken:
            return FAILED
        return WELL if WELL in self.statuses else SAME

    # ---- what is said at the end

    def end(self, stopped):
        """Writes what was refused, the summary and how to go on, and gives the status."""
        self.refusals.notes += [*self.plan.notes, *(FOREIGN.format(name) for name in self.request.foreign)]
        self.refusals.tell(self.screen)
        for name in self.unkept:
            self.screen.say(f"{name}: its text before this run, or after it, could not be read: an undo of the run says so, too")
        if self.screen.is_broken:
            self.screen.say("<stdout>: cannot write")
        if self.request.quiet < 2:
            self.say_summary()
        if stopped is not None:
            self.screen.say(f"stopped by {signal.Signals(stopped).name}")
        again = [package for package in self.plan.steps if package in self.refusals.lines or package in set(self.rest)]
        if again and len(again) < len(self.plan.steps) and self.request.quiet < 2:
            self.say_how(again)
        return self.status()

    def say_summary(self):
        links = len(self.plan.links)
        if links:
            self.screen.say(f"passed over {counted(links, 'package')} whose BUILD file is a link: {', '.join(sorted(self.plan.links)[:3])}{', ..' * (links > 3)}")
        same = self.tried - len(self.fixed) - len([one for one in self.refusals.lines if one in self.plan.steps])
        does = "would change" if self.request.is_trial() else "fixed"
        parts = [(len(self.fixed), does), (max(same, 0), "left unchanged"), (len(self.refusals), "refused"), (len(self.rest), "not begun")]
        text = summary(parts)
        # what a run that only prints has printed says all
        is_shown = self.request.has("--stdout") and not self.refusals and not self.rest
        if text and not is_shown and (not self.has_printed or self.fixed or self.refusals or self.rest):
            self.screen.say(text)
        if self.request.has("--diff") and self.fixed:
            self.screen.say("to make this edit: " + command_line([NAME, *(word for word in self.request.words if word != "--diff")]))
        if self.record:
            self.screen.say(f"this was run {self.record.number}: {NAME} undo takes it back")
            if self.record.number == 1:
                self.say_of_git(next(iter(self.record.files)))

    def say_of_git(self, name):
        """Writes how git ignores journals, where it doesn't yet."""
        name += ".journal"
        if git.own_folder(self.request.root) and not git.ignored(self.request.root, [name]):
            file = os.path.relpath(os.path.join(self.request.root, ".gitignore"))
            self.screen.say(f"git doesn't ignore the journals yet: printf '*.journal\\n*.bznew\\n' >> {command_line([file])}")

    def say_how(self, packages):
        """Writes the command line that goes on with just these packages."""
        words = [NAME, *self.options_again()]
        pairs = [(line, targets) for package in packages for line, targets in self.plan.steps[package]]
        texts = [written(line, targets) for line, targets in pairs]
        is_kept = all(texts) and (len(pairs) > MOST_NAMES or pairs[0][0].number)
        file = state.keep(self.request.root, os.fsencode("".join(texts)), self.request.options.get("--state")) if is_kept else None
        if file:
            words += ["-f", file]
        elif not pairs[0][0].number:
            words += [*pairs[0][0].commands, *(str(target) for _, targets in pairs for target in targets)]
        else:
            return
        self.screen.say("to go on with just these: " + command_line(words))

    def options_again(self):
        """The options of the command line that goes on; the kinds are in its targets."""
        options = {name: value for name, value in self.request.options.items() if name not in ("-f", "--types")}
        return [word for name, value in options.items() for word in ([name] * value if name in FLAGS else [f"{name}={value}"])]


# ---- commands on runs


def when(record):
    return time.strftime("%Y-%m-%d %H:%M", time.localtime(record.time))


def list_runs(runs, screen):
    """Prints the last runs: the number, the time, the number of files, what became of it, and the command line."""
    for record in itertools.islice(runs.all(), LISTED):
        how = " (taken back)" if record.state == UNDONE else " (stopped)" if record.was_stopped else ""
        line = f"{record.number:>4}  {when(record)}  {counted(len(record.files), 'file'):>12}{how}  {record.line}"
        screen.put(os.fsencode(shown(line)) + b"\n")
    return WELL


def list_journals(request, lines, path, screen):
    """Prints the texts of journals: a star at the present one, its number, the beginning of the digest, when a run left it, if known, the command."""
    runs, refusals = request.runs(is_needed=False), Refusals()
    times = {(name, after): when(record) for record in runs.all() for name, (_, after) in record.files.items()} if runs else {}
    with Pool(request.processes) as pool:
        editor = Editor(pool, path, request.root, [])
        names = [name for name in editor.plan(lines, request.kinds, refusals).files() if os.path.lexists(os.path.join(request.root, name + ".journal"))]
        for target in [target for target in lines[0].targets if not target.is_pattern and target.package not in {*names, *map(os.path.dirname, names)}]:
            refusals.add(target.package, [f"{place(target.package, 'BUILD')}: there is no journal"])
        moves = Moves(editor, runs, screen, 0)
        for name, texts in sorted(moves.journals(names)):
            rows, width = [shown(name)], len(str(len(texts) - 1))
            wide = 18 * any((name, text.digest) in times for text in texts)
            for number, text in enumerate(texts):
                row = f"  {'*' if text.is_present else ' '} {number:>{width}}  {text.digest[:12]}  {times.get((name, text.digest), ''):{wide}}{text.note}"
                rows.append(shown(row).rstrip())
            screen.put("".join(row + "\n" for row in rows).encode())
        for name, why in moves.left.items():
            refusals.add(name, why.split("\n"))
        refusals.tell(screen)
        return FAILED if refusals else SAME, pool.signal


def move_run(request, path, screen):
    """Takes a run back or does it again; gives the status and the signal that stopped it."""
    runs = request.runs()
    if request.operands[0] == "runs":
        return list_runs(runs, screen), None
    number = count(request.operands[1], "the number of a run") if request.operands[1:] else None
    with Pool(request.processes) as pool:
        moves = Moves(Editor(pool, path, request.root, []), runs, screen, request.quiet)
        status = moves.undo(number) if request.operands[0] == "undo" else moves.redo(number)
        return status, pool.signal


# ---- the command


def run(words, screen):
    """Runs the command, and gives its status and the signal that stopped it."""
    request = Request(words)
    if request.has("--help"):
        screen.put(HELP.encode() + b"\n")
        return WELL, None
    path = program("buildozer")
    if path is None:
        raise Usage("buildozer is neither beside this command nor on the PATH")
    if request.has("--version"):
        os.execv(path, [path, "--version"])
    if request.of_runs():
        return move_run(request, path, screen)
    lines, (operands, text) = request.lines()
    fault = usage_of(path, operands, text, request)
    if fault is not None:
        for line in os.fsdecode(fault).rstrip("\n").split("\n"):
            screen.say(line)
        return USAGE, None
    request.check(lines)
    if request.lists_journals():
        return list_journals(request, lines, path, screen)
    if request.has("--journal"):
        request.runs()
    this = Run(request, path, screen)
    stopped = this.over(lines)
    if this.fixed and not request.has("--journal") and not request.is_trial():
        plain = request.runs(is_needed=False)
        if plain:
            plain.note_plain(request.line)
    return this.end(stopped), stopped


def main():
    """The command; gives its status."""
    return run_as(NAME, run, USAGE, FAILED)
