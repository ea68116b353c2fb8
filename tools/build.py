#!/usr/bin/env python3
"""Proves what programs depend on, several crates at a time, builds the programs, and puts them into bin/.

    tools/build.py PROGRAM..

A line is printed for each crate that is done, with how many of all are done, the minutes since the start, and about how many are left
(tools/plan.py). Crates that are proved are kept in their folders out/, so a run that was interrupted goes on after these, and one over
unchanged sources proves nothing. The first proof that fails ends the run, and the last line names its crate.

A crate is proved when all that it depends on is, by rt lib in a copy of the crates (tools/crates.py), of which there is one for
each crate that is proved at a time; what came of it is put into the crate's own folder. Where several can be proved, the one
with the most work above it comes first, with four jobs where the others leave the processors. A program is built in the same way,
by rt run, which also runs it on its own files (args, stdin): it must write what its file stdout has.

JOBS in the environment is how many processors are used. Without it these are all, as far as there is memory for as many proofs.

With KEEP=yes in the environment what was proved of each function is kept too, so that after a change only what it touches is proved
again. That takes longer at first, since libraries are read with their proofs. It is so without it too for a crate of which an
earlier check kept such work.
"""
import contextlib
import ctypes
import hashlib
import os
import pathlib
import re
import shutil
import signal
import subprocess
import sys
import tempfile
import time

from crates import TOP, below, copy_sources, take_library
from plan import Plan

# rt, where a library that it builds holds its statements alone
RT_STATEMENTS = str(TOP / "tools" / "rt_statements.py")
# what a proof may take of memory, in bytes; most take less
MEMORY = 3_500_000_000
PROVED = re.compile(r"^logic=proved ", re.MULTILINE)
# what rt run says when a program is proved and built
RUNS = "rt: running out/"
# how often it is looked whether a proof has ended, in seconds
PAUSE = 0.2
# whether what was proved of each function is kept
KEEPS = os.environ.get("KEEP") == "yes"
# what starts a proof that takes only what others leave of the processors
ASIDE = ("nice", "-n", "10")
# by this option of prctl, PR_SET_CHILD_SUBREAPER, what an ended rt leaves becomes a child of this run
ADOPTS = 36


class NotDone(Exception):
    """A crate that was not proved or built, with what was reported of it."""

    def __init__(self, crate, why, said):
        super().__init__(f"{crate} {why}")
        self.said = said


class Progress:
    """How many of the crates are done, and when the run began."""

    def __init__(self, count):
        self.count, self.done, self.start = count, 0, time.monotonic()

    def tell(self, crate, what, seconds_left):
        self.done += 1
        minutes, left = int((time.monotonic() - self.start) / 60), round(seconds_left / 60)
        unit = "minute" if minutes == 1 else "minutes"
        rest = f", about {left} left" if left else ", less than one left" if seconds_left else ""
        print(f"{crate} {what}, {self.done} of {self.count}, {minutes} {unit}{rest}", flush=True)


def room():
    """For how many proofs there is memory."""
    free = re.search(r"MemAvailable:\s+(\d+)", pathlib.Path("/proc/meminfo").read_text())
    return 1024 * int(free[1]) // MEMORY


def processors():
    """How many processors are used."""
    asked = os.environ.get("JOBS", "")
    if asked.isdigit():
        return max(int(asked), 1)
    return max(min(len(os.sched_getaffinity(0)), room()), 1)


def content(file):
    return file.read_bytes() if file.exists() else b""


def is_program(crate):
    return (TOP / "crates" / crate / "src" / "main.rt").exists()


def sum_of_libraries(crate, libraries, top):
    """A sum of the libraries that a crate depends on, as they were built: the file format of each holds one of its files."""
    made = hashlib.sha256()
    for library in below(crate, libraries):
        made.update(content(top / "crates" / library / "out" / "rlib" / f"{library}.rlib" / "format"))
    return made.hexdigest()


class Proof:
    """A crate that is being proved, or a program that is being built, in a copy of all crates."""

    def __init__(self, turn, copy, libraries):
        self.turn, self.crate, self.copy, crate = turn, turn.crate, copy, turn.crate
        self.folder, self.kept = copy / "crates" / crate, TOP / "crates" / crate / "out"
        for library in below(crate, libraries):
            take_library(library, TOP, copy)
        # what an earlier run kept of this crate makes this one faster
        shutil.rmtree(self.folder / "out", ignore_errors=True)
        if self.kept.exists():
            self.kept.rename(self.folder / "out")
        self.drop_misfit(sum_of_libraries(crate, libraries, copy))
        has_kept = KEEPS or (self.folder / "out" / "incremental").exists()
        command = ["rt" if has_kept else RT_STATEMENTS, "lib", "--jobs", str(turn.jobs)]
        if is_program(crate):
            command = ["rt", "run", "--jobs", str(turn.jobs), "--", *content(self.folder / "args").decode().splitlines()]
        self.output, self.said = tempfile.TemporaryFile(), tempfile.TemporaryFile()
        with tempfile.TemporaryFile() as given:
            given.write(content(self.folder / "stdin"))
            given.seek(0)
            self.run = subprocess.Popen([*ASIDE * turn.can_wait, *command], cwd=self.folder, stdin=given, stdout=self.output, stderr=self.said)

    def drop_misfit(self, found):
        """Removes the library of an earlier run where it was built over other libraries than those that are found here. Statements fit
        only these, and the stamp that rt writes beside them is of sources alone."""
        self.over, rlib = found, self.folder / "out" / "rlib"
        if (rlib / "over").exists() and (rlib / "over").read_text() != found:
            shutil.rmtree(rlib)

    def has_ended(self):
        return self.run.poll() is not None

    def texts(self):
        """What came on standard output and on standard error."""
        for file in (self.output, self.said):
            file.seek(0)
        return self.output.read(), self.said.read().decode(errors="replace")

    def put_back(self):
        """Puts what came of a proof that has ended into the crate's own folder."""
        if (self.folder / "out").exists():
            shutil.rmtree(self.kept, ignore_errors=True)
            (self.folder / "out").rename(self.kept)

    def finish(self):
        """The word for what came of a proof that has ended."""
        output, said = self.texts()
        if is_program(self.crate):
            self.look_at_run(output, said)
        elif self.run.returncode:
            raise NotDone(self.crate, "NOT PROVED", output.decode(errors="replace") + said)
        self.is_new = bool(PROVED.search(output.decode(errors="replace") + said))
        if self.is_new and not is_program(self.crate):
            (self.folder / "out" / "rlib" / "over").write_text(self.over)
        self.put_back()
        if is_program(self.crate):
            install(self.crate)
            return "built"
        return "proved" if self.is_new else "was proved before"

    def look_at_run(self, output, said):
        """Sees that a program was built, and that it wrote what it should."""
        if RUNS not in said:
            raise NotDone(self.crate, "NOT BUILT", said)
        if (output, self.run.returncode) != (content(self.folder / "stdout"), int(content(self.folder / "status") or 0)):
            raise NotDone(self.crate, "does not write what its file stdout has, or ends with another status", said)

    def end(self):
        self.run.terminate()
        self.run.wait()


def install(program):
    """Puts a built program into bin/, in two steps, so that one that runs now goes on."""
    (TOP / "bin").mkdir(exist_ok=True)
    made = TOP / "bin" / f"{program}.new"
    shutil.copy(TOP / "crates" / program / "out" / program, made)
    made.replace(TOP / "bin" / program)


@contextlib.contextmanager
def copies(count):
    """Folders beside the repository with copies of the crates, which go when the block ends."""
    with tempfile.TemporaryDirectory(prefix=f"{TOP.name}-proofs-", dir=TOP.parent) as folder:
        made = [pathlib.Path(folder, str(number)) for number in range(count)]
        for copy in made:
            copy.mkdir()
            copy_sources(copy, without=("must-fail",))
        yield made


def is_kept(crate):
    """Whether an earlier run has left what a crate is proved or built for, which may be of no use any more."""
    out = TOP / "crates" / crate / "out"
    return (out / crate).exists() if is_program(crate) else (out / "rlib" / "stamp").exists()


def prove_all(plan, progress):
    running, looked = [], time.monotonic()
    with copies(plan.processors) as free:
        try:
            while plan.left or running:
                running += [Proof(turn, free.pop(), plan.libraries) for turn in plan.start([proof.turn for proof in running])]
                time.sleep(PAUSE)
                before, looked = looked, time.monotonic()
                plan.advance([proof.turn for proof in running], looked - before)
                for proof in [proof for proof in running if proof.has_ended()]:
                    word = proof.finish()
                    running.remove(proof)
                    free.append(proof.copy)
                    plan.end(proof.turn, proof.is_new)
                    progress.tell(proof.crate, word, plan.seconds_left([proof.turn for proof in running]))
        finally:
            for proof in running:
                proof.end()
            # When rt ends, its guards end what it works with, and the copies can go when that has come about.
            with contextlib.suppress(ChildProcessError):
                while True:
                    os.wait()
            for proof in running:
                proof.put_back()


def main():
    # An end that is requested ends what was started too.
    signal.signal(signal.SIGTERM, lambda *_: sys.exit(143))
    ctypes.CDLL(None).prctl(ADOPTS, 1)
    plan = Plan(sys.argv[1:], processors())
    plan.kept.update(filter(is_kept, plan.left))
    progress = Progress(len(plan.left))
    print(f"{progress.count} crates, on {plan.processors} processors", flush=True)
    try:
        prove_all(plan, progress)
    except NotDone as failure:
        print(failure.said, end="", file=sys.stderr)
        print(failure, file=sys.stderr)
        return 1
    return 0


if __name__ == "__main__":
    try:
        sys.exit(main())
    except KeyboardInterrupt:
        sys.exit(130)
