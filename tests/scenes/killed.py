#!/usr/bin/env python3
"""Kills the built program buildozer at moments by chance while it edits a file with --journal, and looks at what the next run finds.

The program runs some hundred commands from a file of lines, each of which it keeps as soon as it is done, and is killed in the midst
of them. What must be there is known from a small model of the commands: the texts that came one after the other, and at each moment
the history, and where its cursor was. So after each kill

- the file holds a text of that model, whole, and the next run lists a history of it, with the mark at this very text;
- run by run, undo gives each earlier text back byte for byte, down to the first one, and then there is none.

Each moment has a folder of its own. The moments come from a seed, which is printed; SEED=.. in the environment repeats it, as far as
the machine is as fast.

    [HOSTILE=whole] [SEED=..] tests/scenes/killed.py PROGRAM
"""

import collections
import concurrent.futures
import contextlib
import operator
import os
import pathlib
import random
import signal
import subprocess
import time

from lib.folders import files_in, new_folder, put
from lib.journal_format import listing
from lib.lines import too_far
from lib.runs import ended
from lib.scenes import PROCESSORS, WHOLE, Scenes

MOMENTS = 100 if WHOLE else 20
# how many commands are requested of a run, and how many texts its history may have at most, so that it is soon undone
COMMANDS = 120
MOST = 6
RULES = 2
NAME = "p/BUILD"

# A history: its texts, the notes of the steps between them, and the number of the present one.
History = collections.namedtuple("History", "texts notes cursor")


# ---- the model: rules with a size, each a number


def first_text(sizes):
    """The text without the layout."""
    return b"# odd\r\n" + b"".join(b"f( name='r%d',size = %d )\n" % pair for pair in enumerate(sizes))


def laid_out(sizes):
    rules = [b'f(\n    name = "r%d",\n    size = %d,\n)\n' % pair for pair in enumerate(sizes)]
    return b"# odd\n" + b"\n".join(rules)


class Model:
    """What the commands make of the file: the sizes of each text, the notes, and the cursor."""

    def __init__(self):
        self.states, self.notes, self.cursor = [(0,) * RULES], [], 0

    def history(self):
        texts = [first_text(self.states[0]), *map(laid_out, self.states[1:])]
        return History(texts, list(self.notes), self.cursor)

    def set(self, rule, size):
        sizes = list(self.states[self.cursor])
        sizes[rule] = size
        command = f"set size {size}"
        self.states[self.cursor + 1 :] = [tuple(sizes)]
        self.notes[self.cursor :] = [command.encode()]
        self.cursor += 1
        return f"{command}|//p:r{rule}"

    def move(self, steps):
        self.cursor += steps
        return f"{'undo' if steps < 0 else 'redo'} {abs(steps)}|//p:all"


def script(chance):
    """Lines of commands by chance, and the history before the first one and after each."""
    model, lines = Model(), []
    histories = [model.history()]
    for number in range(1, COMMANDS + 1):
        ahead = len(model.states) - 1 - model.cursor
        if model.cursor == MOST or model.cursor > 1 and chance.random() < 0.2:
            lines.append(model.move(-chance.randint(1, min(model.cursor, 5))))
        elif ahead and chance.random() < 0.4:
            lines.append(model.move(chance.randint(1, ahead)))
        else:
            lines.append(model.set(chance.randrange(RULES), number))
        histories.append(model.history())
    return "".join(line + "\n" for line in lines).encode(), histories


# ---- a killed run, and those after it


class Killed:
    """The program, and a folder in which a run of it is killed."""

    def __init__(self, program, folder, chance):
        self.program, self.folder = program, pathlib.Path(folder)
        lines, self.histories = script(chance)
        put(folder, {NAME: self.histories[0].texts[0], "lines": lines})

    def text(self):
        return (self.folder / NAME).read_bytes()

    def start(self):
        words = [self.program, "--quiet", "--journal", "-f", "lines"]
        return subprocess.Popen(words, cwd=self.folder, stdin=subprocess.DEVNULL, stdout=subprocess.DEVNULL, stderr=subprocess.PIPE)

    def kill(self, seconds):
        """Kills the run this many seconds after its start, and gives how it ended and what it reported."""
        with self.start() as run:
            time.sleep(seconds)
            run.send_signal(signal.SIGKILL)
            told = run.stderr.read()
        return run.returncode, told

    def ended(self, command):
        return ended([self.program, "--quiet", "--journal", command, "//p:all"], self.folder)

    def found(self):
        """The history that the next run lists, which is one of the model's, at its cursor or, where the file wasn't written yet, at
        the one before it; None where it is neither."""
        status, out, err = self.ended("journal")
        if (status, err) != (3, b""):
            return None
        for number, history in enumerate(self.histories):
            for cursor in {history.cursor, self.histories[max(number - 1, 0)].cursor}:
                if cursor < len(history.texts) and out == listing(history.texts, cursor, history.notes):
                    return history._replace(cursor=cursor)
        return None

    def wrong(self):
        """What the runs after a killed one show that must not be."""
        text, history = self.text(), self.found()
        if history is None:
            return [f"listed: {self.ended('journal')}, with {text}"]
        if text != history.texts[history.cursor]:
            return [f"the file holds {text}, and is listed at {history.cursor} of {history.texts}"]
        for cursor in range(history.cursor - 1, -1, -1):
            end = self.ended("undo")
            if end != (0, b"", b"") or self.text() != history.texts[cursor]:
                return [f"undo to {cursor}: {end}, {self.text()}, and not {history.texts[cursor]}"]
        return self.wrong_at_the_first(history)

    def wrong_at_the_first(self, history):
        """Nothing comes before the first text; and redo gives the last one again, after which no half file is left."""
        wanted = 2, b"", too_far("undo", NAME)
        end, last = self.ended("undo"), len(history.texts) - 1
        if end != wanted:
            return [f"undo of the first text: {end}"]
        if last == 0:
            return []
        end = self.ended(f"redo {last}")
        names = set(files_in(self.folder))
        right = end == (0, b"", b"") and self.text() == history.texts[-1] and names == {NAME, f"{NAME}.journal", "lines"}
        return [] if right else [f"redo {last}: {end}, {self.text()}, {names}"]


# ---- scenes

SEED = int(os.environ.get("SEED", random.SystemRandom().randrange(1_000_000)))
# how often a run is tried that had ended before it was to be killed
TRIES = 5


class Moments:
    """The program, how long a whole run of it takes in seconds, the moments at which a run was killed before it ended, and those
    after which there was something to undo or to redo."""

    def __init__(self, program):
        self.program, self.seconds, self.struck, self.kept = program, 0.0, [], []

    def not_killed(self):
        """A whole run, which leaves the last history, and goes back to the first text; it is timed."""
        with new_folder() as folder:
            killed = Killed(self.program, folder, random.Random(SEED))
            start = time.monotonic()
            with killed.start() as run:
                told = run.stderr.read()
            self.seconds = time.monotonic() - start
            last = killed.histories[-1]
            # A run that ends at the text that it read has changed nothing.
            status = 3 if last.texts[last.cursor] == last.texts[0] else 0
            if (run.returncode, told, killed.found()) != (status, b"", last):
                return [f"seed {SEED}: status {run.returncode}, {told}, {killed.found()}, and not {last}"]
            return killed.wrong()

    def killed(self, number):
        """A run that is killed at a moment of its own; where it had ended by then, another one at half of that, so that most are
        killed also where the run that was timed was slow."""
        seconds, wrong = random.Random(f"{SEED} {number}").uniform(0, self.seconds), []
        for _ in range(TRIES):
            status, has_more, faults = self.killed_at(number, seconds)
            wrong += [f"seed {SEED}, moment {number}, {seconds:.3f} s: {fault}"[:2000] for fault in faults]
            if status == -signal.SIGKILL:
                break
            seconds /= 2
        self.struck += [number] if status == -signal.SIGKILL else []
        self.kept += [number] if has_more else []
        return wrong

    def killed_at(self, number, seconds):
        """How a run ended that is killed after so long, whether there is something to undo or to redo, and what is wrong."""
        with new_folder() as folder:
            killed = Killed(self.program, folder, random.Random(f"{SEED} {number} lines"))
            status, told = killed.kill(seconds)
            history = killed.found()
            # one that had ended by then is no fault
            faults = [] if told == b"" and status in (0, 3, -signal.SIGKILL) else [f"status {status}, {told}"]
            return status, bool(history and len(history.texts) > 1), faults + killed.wrong()

    def most_were_killed(self):
        """Else the moments show nothing: most must come before a run ends, and after its first commands."""
        struck, kept = len(self.struck), len(self.kept)
        if min(struck, kept) * 2 > MOMENTS:
            return []
        return [f"seed {SEED}: of {MOMENTS} runs {struck} were killed before they ended, and {kept} after their first command"]


FIRST, LAST = "a run that is not killed", "most runs are killed after their first command"


@contextlib.contextmanager
def all_moments(program):
    """What is wrong in each scene, by its name. The first one is timed, so nothing runs beside it."""
    SCENES.say(f"seed {SEED}, {MOMENTS} moments")
    moments, numbers = Moments(program), range(1, MOMENTS + 1)
    wrong = {FIRST: moments.not_killed()}
    with concurrent.futures.ThreadPoolExecutor(PROCESSORS) as pool:
        wrong |= zip(map(name_of, numbers), pool.map(moments.killed, numbers))
    yield wrong | {LAST: moments.most_were_killed()}


def name_of(number):
    return f"killed at moment {number}"


NAMES = [FIRST, *map(name_of, range(1, MOMENTS + 1)), LAST]
SCENES = Scenes(__file__, {name: operator.itemgetter(name) for name in NAMES}, all_moments)

if __name__ == "__main__":
    SCENES.main()
