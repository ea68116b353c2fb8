"""Takes a run back, or does it again: each file that is at the text on the one side goes as many steps through its journal as lie between that
text and the one on the other side. A file that is at neither stays as it is, and is named.
"""
import collections
import os
import re

from .edit import FAILED, SAME, WELL, fronts_of
from .files import UNREAD, digest_of
from .names import BUILD_NAMES
from .processes import NOT_RUN, batches, room_beside, worked
from .refusals import by_name, summary
from .runs import DONE, UNDONE
from .state import Unreadable
from .terminal import shown

ENTRY = re.compile(rb"([* ]) (\d+) ([0-9a-f]{64})(?: (.*))?", re.DOTALL)
Text = collections.namedtuple("Text", "is_present digest note")

# How a run is gone through: the command, which digest of a file is the one to start at and which the goal, the words for it, and the state that comes.
Way = collections.namedtuple("Way", "command start goal told state")
BACK, AGAIN = Way("undo", 1, 0, "taken back", UNDONE), Way("redo", 0, 1, "done again", DONE)


def texts_in(out):
    """The texts of each journal in what `journal` printed, one list after the other; none where it has another line."""
    journals = []
    for row in map(ENTRY.fullmatch, out.split(b"\n")[:-1]):
        if not row or not (journals or row[2] == b"0"):
            return []
        if row[2] == b"0":
            journals.append([])
        journals[-1].append(Text(row[1] == b"*", row[3].decode(), os.fsdecode(row[4] or b"")))
    return journals


def present(texts):
    """The number of the present text; None where there is none."""
    return next((number for number, text in enumerate(texts) if text.is_present), None)


def steps_between(texts, start, goal, is_down):
    """How many steps lead from the present text, which must be the one to start at, to the nearest goal, looked for in one direction and then in the
    other, with the notes of these steps; less than none for an undo, None where there is no goal."""
    at = present(texts)
    if at is None or texts[at].digest != start:
        return None
    ways = [range(at - 1, -1, -1), range(at + 1, len(texts))]
    to = next((number for way in (ways if is_down else ways[::-1]) for number in way if texts[number].digest == goal), None)
    if to is None:
        return None
    return to - at, [text.note for text in texts[min(at, to) + 1 : max(at, to) + 1]]


def presents(lists):
    """The digest of the present text of each list."""
    return [texts[present(texts)].digest for texts in lists if present(texts) is not None]


def listed(name, lines, count):
    """How often a file's texts were listed, of this many times: of one that can't be opened never, and not after a write that failed."""
    if any(line.startswith((f"{name}:", f"{name}.journal:")) and not line.endswith(": cannot write") for line in lines):
        return 0
    return 1 if f"{name}: cannot write" in lines else count


def spelled(steps):
    """The command that goes some steps."""
    return f"redo {steps}" if steps > 0 else f"undo {-steps}"


class Moves:
    """The undo and the redo of runs."""

    def __init__(self, editor, runs, screen, quiet):
        self.editor, self.runs, self.screen, self.quiet = editor, runs, screen, quiet
        # why a file is left, those of them that never go on, and what is said of others
        self.left, self.lost, self.notes = {}, set(), {}
        self.moved = self.there = 0

    # ---- which run

    def undo(self, number):
        """Takes back the run of a number, or the last one that is not; gives the status."""
        records = self.records(number)
        chosen = next((record for record in records if number or record.state != UNDONE or self.goes_on(record, BACK)), None)
        if number is None:
            self.look_for_plain(chosen)
        return self.move(chosen, BACK, number)

    def look_for_plain(self, chosen):
        """Raises Unreadable where a run that kept no journal was the last one: a run before it is taken back by its number alone."""
        line = self.runs.plain_since(max(self.runs.numbers(), default=0))
        if line is not None:
            before = f"to take back the run before it: buildozer-tree undo {chosen.number} ({chosen.line})" if chosen else "no run before it can be taken back"
            raise Unreadable(f"undo: the last run kept no journal: {line}\n{before}")

    def redo(self, number):
        """Does the run of a number again, or the first one of those that were taken back last; gives the status."""
        if number:
            return self.move(next(iter(self.records(number)), None), AGAIN, number)
        chosen, last = None, max(self.runs.numbers(), default=0)
        for record in self.records(None):
            if record.state != UNDONE:
                chosen = record if chosen is None and self.goes_on(record, AGAIN) else chosen
                break
            # one that was taken back before a later run began is passed over
            chosen = record if record.last_then == last else chosen
        return self.move(chosen, AGAIN, number)

    def records(self, number):
        return self.runs.all() if number is None else [record for record in [self.runs.read(number)] if record]

    def goes_on(self, record, way):
        """Whether a file that was left the last time is at the text to start at now."""
        return any(digest_of(self.path(name)) == record.files[name][way.start] for name in record.left if name in record.files)

    def path(self, name):
        return os.path.join(self.editor.root, name)

    # ---- the way

    def move(self, record, way, number):
        """Goes a run's way in all of its files."""
        if record is None:
            which = f"no run {number}" if number else f"no run to {way.command}"
            raise Unreadable(f"{way.command}: there is {which}; 'runs' lists those that are kept")
        with self.runs.held(record.number) as is_free:
            if not is_free:
                raise Unreadable(f"{way.command}: run {record.number} is going on")
            plan = self.planned(record, way)
            # what was found of a run that was stopped is kept first, so that it can be gone back too
            self.runs.write(record)
            self.go(record, way, plan)
            if self.editor.pool.signal is None:
                record.state, record.left, record.last_then = way.state, sorted(set(self.left) - self.lost), max(self.runs.numbers())
                self.runs.write(record)
        return self.end(record, way)

    def planned(self, record, way):
        """The number of steps for each file that goes some."""
        candidates, side = {}, "that run" if way is BACK else "before run"
        for name, (before, after) in record.files.items():
            now, goal = digest_of(self.path(name)), (before, after)[way.goal]
            if now == goal is not None or (after is None and now == before):
                self.there += 1
            elif goal is None:
                self.leave(name, f"its text {('before', 'after')[way.goal]} run {record.number} is not known", is_lost=True)
            elif now in (None, UNREAD):
                self.leave(name, "it is not there" if now is None else "it cannot be read")
            elif now == (before, after)[way.start] or after is None and way is BACK:
                candidates[name] = now
            else:
                self.leave(name, f"it does not hold the text {side} {record.number}{' left' * (way is BACK)}")
        plan = {}
        for name, texts in self.journals(list(candidates)):
            self.plan_one(record, way, name, candidates[name], texts, plan)
        return plan

    def leave(self, name, why, is_lost=False):
        self.left[name] = why
        self.lost |= {name} if is_lost else set()

    def plan_one(self, record, way, name, now, texts, plan):
        before, after = record.files[name]
        found = steps_between(texts, now, (before, after)[way.goal], (way is BACK) != record.goes_back)
        if found is None:
            self.leave(name, "its journal does not lead there", is_lost=True)
        elif after is None and not record.goes_back and not set(found[1]) <= {command.replace("\n", "\\n") for command in record.commands}:
            self.leave(name, "other commands have changed it since")
        else:
            if after is None and not record.was_stopped:
                self.notes[name] = f"its text after run {record.number} was not known, and it went back by the commands that its journal has: look at it"
            record.files[name] = [before, now if after is None else after]
            plan[name] = found[0]

    def journals(self, names):
        """Yields the texts of each file's journal; a file of which it cannot be read is left."""
        for _, batch, found in self.editor.pool.each(lambda batch: self.listings(batch, ["journal"]), self.cut(names)):
            for name in batch:
                lists, lines = found[name]
                if lists:
                    yield name, lists[0]
                else:
                    self.leave(name, "\n".join(lines) or "its journal was not listed")

    def cut(self, names):
        return list(batches(names, self.editor.pool.processes, str, room_beside([])))

    def listings(self, names, commands):
        """Runs commands on files, `journal` among them; gives for each the lists of its texts, and the lines on what was refused."""
        ended = self.editor.call(["-k", "--quiet", "--journal"], commands, [target_of(name) for name in names])
        if ended.status == NOT_RUN or ended.status < 0:
            return dict.fromkeys(names, ([], [f"buildozer {ended.how()}"]))
        refused = by_name(ended.err, {front: name for name in names for front in fronts_of([name])})
        lists, found = texts_in(ended.out), {}
        for name in names:
            count = listed(shown(name), refused.get(name, []), commands.count("journal"))
            found[name], lists = (lists[:count], refused.get(name, [])), lists[count:]
        if not lists and all(texts or lines for texts, lines in found.values()):
            return found
        if len(names) > 1 and len(commands) == 1:  # one of them is not as the others
            return {name: self.listings([name], commands)[name] for name in names}
        return dict.fromkeys(names, ([], ["its journal was not listed"]))

    def go(self, record, way, plan):
        """Goes the steps, and looks at what each file holds then."""
        pool, by_steps = self.editor.pool, {}
        for name, steps in sorted(plan.items()):
            by_steps.setdefault(steps, []).append(name)
        tasks = [batch for names in by_steps.values() for batch in self.cut(names)]
        for names, whys in worked(pool, lambda batch: self.stepped(batch, way, record, plan), tasks, self.screen, "file"):
            for name in names if whys is not None else []:
                if name not in whys and digest_of(self.path(name)) == record.files[name][way.goal]:
                    self.moved += 1
                    if not self.quiet:
                        self.screen.say(f"fixed {name}")
                else:
                    self.leave(name, whys.get(name, "it is at another text"))

    def stepped(self, names, way, record, plan):
        """Goes the steps of files, the same for each, and gives why one did not. The same process lists what each began and ended at: where that shows
        that another run has changed a file since it was looked at, what was taken of that run is given back."""
        steps, whys = plan[names[0]], {}
        for name, (lists, lines) in self.listings(names, ["journal", spelled(steps), "journal"]).items():
            digests = presents(lists)
            last = digests[-1] if len(digests) > 1 else digest_of(self.path(name))
            if digests and (digests[0] != record.files[name][way.start] or last not in (digests[0], record.files[name][way.goal])):
                whys[name] = "another run has changed it meanwhile" + (self.given_back(name, -steps, digests[0]) if last != digests[0] else "")
            elif lines or len(digests) < 2:
                whys[name] = "\n".join(lines) or "it is not known what came of it"
        return whys

    def given_back(self, name, steps, text):
        """Goes the steps back from the text of another run, and says whether that one is there again."""
        digests = presents(self.listings([name], ["journal", spelled(steps), "journal"])[name][0])
        if digests and digests[-1] == text:
            return "; that run's text was taken for this one's, and is there again"
        return f"; that run's text was taken for this one's: to have it again: buildozer --journal '{spelled(steps)}' {target_of(name)}"

    # ---- what is said

    def end(self, record, way):
        for name in sorted(self.left):
            for line in f"{shown(name)}: left as it is: {self.left[name]}".split("\n"):
                self.screen.say(line)
        for name in sorted(set(self.notes) - set(self.left)):
            self.screen.say(f"{name}: {self.notes[name]}")
        if self.quiet < 2:
            parts = [(self.moved, way.told), (len(self.left), "left alone"), (self.there, "there already")]
            self.screen.say(summary(parts) + f": run {record.number}, {record.line}")
        if set(self.left) - self.lost:
            self.screen.say(f"to go on with just these, once they hold that text: buildozer-tree {way.command} {record.number}")
        return FAILED if self.left or self.notes else WELL if self.moved else SAME


def target_of(name):
    """A target of the package that a file is of, or of the file."""
    return f"//{os.path.dirname(name) if os.path.basename(name) in BUILD_NAMES else name}:all"
