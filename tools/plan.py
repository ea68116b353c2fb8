"""Which crates a run of tools/build.py proves next, with how many jobs, and how long what is left takes.

Both go by the processor seconds that the table of docs/internals/GATE.md has for each crate. How much longer a crate takes than these, by the
machine and by what else runs on it, is seen of those that are done; what is left is then played through by the same rules as it is proved.
"""
import dataclasses
import functools

from blocks import cells_of
from crates import TOP, below, libraries_of

# the table with the seconds of each crate in this column
TABLE, COLUMN = TOP / "docs" / "internals" / "GATE.md", "In `make`"
# what a crate takes that is not in the table, and one of which an earlier run has what it is proved for; one that takes longer than the
# last of these is proved anew
UNKNOWN, KEPT, ANEW = 120, 4, 20
# with how many jobs a proof is made where it isn't with one: each of them reads much of the same, so that two keep nearly two processors busy
# for 1.4 times the speed, and a fifth makes a proof hardly shorter
MANY_JOBS = 4
# with which part of the most work above any crate one can wait
WAITS = 0.9
# by the jobs of a proof, how many times as fast it is as with one, and how many processors it keeps busy
FASTER, BUSY = (0, 1, 1.4, 1.6, 2), (0, 1, 1.9, 2.4, 2.8)
# which part of the processors those that can wait get where others keep all of them busy
ASIDE = 0.1
# for how many seconds a crate counts as it is in the table before any is done
BEFORE = 30
# which part of a crate is left at least while it is not done
LEAST = 0.1


def seconds_of():
    """The seconds of each crate in the table."""
    rows = [cells_of(line) for line in TABLE.read_text().splitlines() if line.startswith("| ")] if TABLE.exists() else []
    header = next((row for row in rows if COLUMN in row), [COLUMN])
    cells = {row[0]: row[header.index(COLUMN)] for row in rows if len(row) == len(header)}
    return {crate: int(cell) for crate, cell in cells.items() if cell.isdigit()}


@dataclasses.dataclass
class Turn:
    """A crate that is being proved, with how many jobs, and whether it takes only what the others leave; and how many of its seconds are
    done, as they are on the machine of the table."""

    crate: str
    jobs: int
    can_wait: bool
    done: float = 0.0


def rates(turns, processors):
    """How many of its seconds each proof does in a second."""
    busy = {waits: sum(BUSY[turn.jobs] for turn in turns if turn.can_wait == waits) for waits in (False, True)}
    free = max(processors - busy[False], ASIDE * processors)
    share = {False: min(1, processors / max(busy[False], 1)), True: min(1, free / max(busy[True], 1))}
    return [FASTER[turn.jobs] * share[turn.can_wait] for turn in turns]


def advance(turns, processors, seconds):
    """Counts what the proofs do in some seconds."""
    for turn, rate in zip(turns, rates(turns, processors)):
        turn.done += seconds * rate


class Plan:
    """Which crates are left, which are done, and what those that are done took."""

    def __init__(self, programs, processors):
        self.libraries, self.seconds, self.processors = libraries_of(), seconds_of(), processors
        unknown = [name for name in programs if name not in self.libraries]
        if unknown or not programs:
            raise SystemExit(f"tools/build.py PROGRAM..; crates.txt names no program {', '.join(unknown)}")
        needed = [crate for program in programs for crate in [*below(program, self.libraries), program]]
        self.left = list(dict.fromkeys(needed))
        self.above = {crate: [other for other in self.left if crate in self.libraries[other]] for crate in self.left}
        self.ended, self.kept, self.took, self.wanted = set(), set(), BEFORE, BEFORE

    @functools.cache
    def work(self, crate):
        """What a crate costs, and the longest row of crates that follow one another above it, in seconds."""
        return self.seconds.get(crate, UNKNOWN) + max(map(self.work, self.above[crate]), default=0)

    @functools.cache
    def over(self, crate):
        """The crates that depend on it."""
        return frozenset(self.above[crate]).union(*map(self.over, self.above[crate]))

    def ready(self, left, ended):
        """The crates of those left all of whose libraries have ended, the one with the most work first."""
        return sorted((crate for crate in left if ended.issuperset(self.libraries[crate])), key=self.work, reverse=True)

    def next(self, running, left, ended):
        """What there are processors for. The crate with the most work above it, of those that run and are ready, gets MANY_JOBS where the
        others leave as many processors, or all that there are where no other runs or is ready; any other gets one, since each further
        job takes processor time of its own. A crate with less than WAITS of that work above it can wait: the others don't count it, since it
        takes what they leave, and one of it is never too many."""
        ready, turns, at_once = self.ready(left, ended), list(running), self.processors
        most = max(map(self.work, [*ready, *(turn.crate for turn in turns)]), default=0)
        urgent = [crate for crate in ready if self.work(crate) >= WAITS * most]
        for place, crate in enumerate(ready):
            can_wait = crate not in urgent
            taken = sum(turn.jobs for turn in turns if can_wait or not turn.can_wait)
            is_first = all(self.work(turn.crate) <= self.work(crate) for turn in turns)
            if len(turns) == at_once or (taken >= at_once + can_wait and not is_first):
                continue
            jobs = min(at_once - taken - len(urgent[place + 1 :]), MANY_JOBS)
            is_alone = len(ready) + len(turns) == 1
            turns.append(Turn(crate, jobs if is_first and (jobs == MANY_JOBS or is_alone) else 1, can_wait))
        return turns[len(running) :]

    def cost(self, crate):
        return KEPT if crate in self.kept else self.seconds.get(crate, UNKNOWN)

    def start(self, running):
        """Takes the next crates from those that are left."""
        turns = self.next(running, self.left, self.ended)
        for turn in turns:
            self.left.remove(turn.crate)
        return turns

    def forget(self, crate):
        """A crate is proved anew, so what an earlier run has of those above it is of no use."""
        self.kept -= {crate, *self.over(crate)}

    def advance(self, running, seconds):
        """Counts what the proofs that run did in these seconds."""
        advance(running, self.processors, seconds)
        for turn in running:
            if turn.crate in self.kept and turn.done > ANEW:
                self.forget(turn.crate)

    def end(self, turn, is_new):
        """Counts a crate as done."""
        self.ended.add(turn.crate)
        if is_new:
            self.forget(turn.crate)
            self.took, self.wanted = self.took + turn.done, self.wanted + self.cost(turn.crate)

    def seconds_left(self, running):
        """How many seconds it takes until all are done: as many times as long as in the table as it was for those that are done."""
        pace, left, ended, seconds = self.took / self.wanted, list(self.left), set(self.ended), 0
        turns = [dataclasses.replace(turn, done=min(turn.done / pace, (1 - LEAST) * self.cost(turn.crate))) for turn in running]
        while turns or left:
            for turn in self.next(turns, left, ended):
                left.remove(turn.crate)
                turns.append(turn)
            step = min((self.cost(turn.crate) - turn.done) / rate for turn, rate in zip(turns, rates(turns, self.processors)))
            advance(turns, self.processors, step)
            seconds += step
            done = {turn.crate for turn in turns if turn.done > self.cost(turn.crate) - 1e-6}
            turns, ended = [turn for turn in turns if turn.crate not in done], ended | done
        return seconds * pace
