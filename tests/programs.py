#!/usr/bin/env python3
"""Runs each program on each folder of tests/PROGRAM, and compares what the process leaves, byte for byte.

A folder has the words (args, one a line) and standard input (stdin), and what must come: standard output (stdout),
standard error (stderr) and the status. A file that is not there is empty, and the status then 0. What the engine does is
proved, and here it is seen that main hands it the words and the streams, and passes its status on. Each program is built
once, by rt try, with no proof. A line for each failure; the last one is 'N passed, M failed'.

With a command after it, as 'tests/programs.py rt ci', that runs first, and the last line adds its last line's numbers; the programs that it
built then run on these folders and through the scripts of tests/scenes (SCRIPTS below, each with what it tries), and no public name gets a
second home (tests/names.py). The first crate that it reports as not proved ends it, as soon as the proofs that run at that moment have ended;
then comes once more what was reported of it. The line before the last one says how long the whole took, on how many processors, and how much
of their time the machine gave to others.
"""
import os
import pathlib
import re
import signal
import subprocess
import sys
import tempfile
import time

import names
from lib.scenes import TOP
from scenes import (
    bazel, building, contrib, devices, disk_acts, edited_packages, failing_calls, foreign_trees, formatted_files, fuzz, hostile_texts, install,
    journals, killed, manual_pages, power, races, readme, refusal_places, refused_memory_calls, refused_memory_runs, sessions, shell_completions,
    whole_trees,
)  # fmt: skip

# what rt try writes: after a heading of its name each run's standard output, and before its result its standard error
HEADING = re.compile(rb"^== (\w+)\n", re.MULTILINE)
RESULT = re.compile(rb"case=(\w+) run=(\w+)(?: status=(\d+))?.*\n")
SUM = re.compile(r"(\d+) passed, (\d+) failed")
# what rt ci writes above all that it reports of a crate, or of its tests
HEADED = re.compile(r"== \w+")
# what rt ci reports of a crate, or of its tests, when its proof has ended
PROVED = re.compile(r"rt: \w+ proved\n")
NOT_PROVED = re.compile(r"rt: (\w+).* NOT PROVED")
# the programs that have folders of runs
PROGRAMS = ("buildozer", "buildifier")
# how many lines of the report of a crate that is not proved are repeated at the end
REPEATED = 20
# what runs the built programs: what it tries, the script with its scenes, and the programs that they take
SCRIPTS = [
    ("runs over real files", formatted_files, ["buildifier"]),
    ("runs over packages", edited_packages, ["buildozer"]),
    ("examples of the pages", readme, ["buildozer", "buildifier"]),
    ("what contrib has", contrib, ["buildozer", "buildifier"]),
    ("commands for whole trees", whole_trees, ["buildozer", "buildifier"]),
    ("trees that others have made", foreign_trees, ["buildozer", "buildifier"]),
    ("pages for man", manual_pages, []),
    ("public names", names, []),
    ("completions in shells", shell_completions, ["buildozer"]),
    ("trying and building", building, []),
    ("installing and packing", install, ["buildozer", "buildifier"]),
    ("runs beside a plain list of texts", sessions, ["buildozer"]),
    ("runs that keep journals", journals, ["buildozer"]),
    ("runs that are killed", killed, ["buildozer"]),
    ("runs with memory refused", refused_memory_runs, ["buildozer", "cases", "buildifier"]),
    ("calls with memory refused", refused_memory_calls, ["cases"]),
    ("torn, deep and made texts", hostile_texts, ["buildozer", "buildifier", "cases"]),
    ("runs with failing calls", failing_calls, ["buildozer", "buildifier"]),
    ("runs with failing devices", devices, ["buildozer", "buildifier"]),
    ("runs beside one another", races, ["buildozer", "buildifier"]),
    ("runs that lose power", power, ["buildozer", "buildifier"]),
    ("acts of the disk", disk_acts, ["buildozer", "buildifier"]),
    ("places of refusals", refusal_places, ["buildozer", "buildifier"]),
    ("runs by chance", fuzz, ["buildozer", "buildifier"]),
    ("runs beside Bazel", bazel, ["buildozer", "buildifier"]),
]


def content(file, default=b""):
    return file.read_bytes() if file.exists() else default


def results_of_built(program, folders):
    """Runs a program that was built on all, each in an empty folder, and gives for each name how the run ended with its status, standard
    output and standard error."""
    found, built = {}, TOP / "crates" / program / "out" / program
    if not built.exists():
        print(f"{program} was not built", flush=True)
        return found
    for folder in folders:
        words = [built, *content(folder / "args").decode().splitlines()]
        with tempfile.TemporaryDirectory() as empty:
            run = subprocess.run(words, cwd=empty, input=content(folder / "stdin"), capture_output=True, timeout=60)
        found[folder.name] = b"ended %d" % run.returncode, run.stdout, run.stderr
    return found


def results_of_tried(program, folders):
    """The same of a program that rt try builds."""
    with tempfile.TemporaryDirectory() as cases:
        for folder in folders:
            pathlib.Path(cases, folder.name).write_bytes(content(folder / "stdin"))
            pathlib.Path(cases, folder.name + ".args").write_bytes(content(folder / "args"))
        command = ["rt", "try", "--cases", cases]
        run = subprocess.run(command, cwd=TOP / "crates" / program, stdout=subprocess.PIPE, stderr=subprocess.PIPE)
    pieces = HEADING.split(run.stdout)
    outputs = dict(zip(pieces[1::2], pieces[2::2]))
    found, at = {}, 0
    for result in RESULT.finditer(run.stderr):
        name, *ended = result.groups(b"")
        found[name.decode()] = b" ".join(ended), outputs.get(name), run.stderr[at : result.start()]
        at = result.end()
    if not found:
        sys.stderr.buffer.write(run.stdout + run.stderr)
    return found


def faults(folder, found):
    """What the run left that it should not."""
    wanted = (
        b"ended " + content(folder / "status", b"0").strip(),
        content(folder / "stdout"),
        content(folder / "stderr"),
    )
    names = "its end", "standard output", "standard error"
    left = found.get(folder.name, (None, None, None))
    return [f"{name}: {is_}, and not {want}" for name, is_, want in zip(names, left, wanted) if is_ != want]


def let_interrupt():
    """Has a command end at an interrupt also where this run was started to pass over them."""
    signal.signal(signal.SIGINT, signal.SIG_DFL)


def minutes_since(start):
    minutes = int((time.monotonic() - start) / 60)
    return f"{minutes} {'minute' if minutes == 1 else 'minutes'}"


def counts_of(command, start):
    """Runs a command, prints its output, each line with the minutes since the start, and gives the numbers of its last line, where
    none of them is a failure, and no report; or, where a crate is not proved, how many were, one failure, and the end of what was
    reported of that crate."""
    last, proved, report, fallen = "", 0, [], False
    unbuffered = dict(os.environ, PYTHONUNBUFFERED="1")
    how = {"stdout": subprocess.PIPE, "stderr": subprocess.STDOUT, "text": True, "preexec_fn": let_interrupt}
    with subprocess.Popen(command, cwd=TOP, env=unbuffered, **how) as run:
        for line in run.stdout:
            # after an interrupt come the lines of the proofs that have ended, and those of the interrupt
            if not fallen or line.startswith("rt: "):
                print(f"{line.rstrip()}  ({minutes_since(start)})", flush=True)
            last = line
            proved += bool(PROVED.fullmatch(line))
            if fallen:
                continue
            report = [line] if HEADED.match(line) else [*report, line]
            reported = NOT_PROVED.match(line)
            if reported:
                fallen = True
                print(f"{reported[1]} is not proved: this ends when the proofs that run now have ended", flush=True)
                # so rt ends as soon as they have, and gives the crates back what earlier checks kept
                run.send_signal(signal.SIGINT)
    if fallen:
        return proved, 1, report[-REPEATED:]
    counts = SUM.fullmatch(last.strip())
    passed, failed = map(int, counts.groups()) if counts else (0, 1)
    return passed, max(failed, 1) if run.returncode else failed, []


def run_folders(program, results):
    """Runs a program on its folders, and gives how many runs passed and failed; none of them is a failure."""
    folders = sorted(folder for folder in (TOP / "tests" / program).iterdir() if folder.is_dir())
    found = results(program, folders)
    failed = 0
    for folder in folders:
        wrong = faults(folder, found)
        failed += bool(wrong)
        for fault in wrong:
            print(f"tests/{program}/{folder.name}: {fault}", flush=True)
    return len(folders) - failed, failed if folders else 1


def run_scenes(script, programs):
    """Runs the built programs through the scenes of a script; where one was not built none of them is passed."""
    built = [TOP / "crates" / program / "out" / program for program in programs]
    if all(program.exists() for program in built):
        return script.SCENES.counts(*built)
    script.SCENES.say("a program was not built")
    return 0, len(script.SCENES.scenes)


def run_gate(command, start):
    """Runs a command that proves all, and then the programs that it built through the scripts; gives what passed and failed in each."""
    passed, failed, report = counts_of(command, start)
    counts = [(passed, failed)]
    if report:
        print("".join(report) + "what comes after this crate was not tried", flush=True)
        return counts
    counts.append(run_programs(results_of_built))
    for name, script, programs in SCRIPTS:
        counts.append(run_scenes(script, programs))
        print("{}: {} passed, {} failed".format(name, *counts[-1]), flush=True)
    return counts


def processor_times():
    """How long all processors have been busy or idle, and how long the machine below took them away, in one unit."""
    user, nice, system, idle, waiting, interrupts, soft, taken = map(int, content(pathlib.Path("/proc/stat")).split()[1:9])
    return user + nice + system + idle + waiting + interrupts + soft, taken


def given_away(before):
    """How many hundredths of the processors' time the machine gave to others since then."""
    had, taken = (now - then for now, then in zip(processor_times(), before))
    return round(100 * taken / max(had + taken, 1))


def run_programs(results):
    """Runs both programs on their folders, and gives how many runs passed and failed."""
    counts = [run_folders(program, results) for program in PROGRAMS]
    passed, failed = map(sum, zip(*counts))
    print(f"runs of the programs: {passed} passed, {failed} failed", flush=True)
    return passed, failed


def main():
    start, before = time.monotonic(), processor_times()
    counts = run_gate(sys.argv[1:], start) if sys.argv[1:] else [run_programs(results_of_tried)]
    passed, failed = map(sum, zip(*counts))
    processors = len(os.sched_getaffinity(0))
    print(f"the whole: {minutes_since(start)} on {processors} processors, {given_away(before)} % of their time given to others")
    print(f"{passed} passed, {failed} failed")
    return 1 if failed else 0


if __name__ == "__main__":
    sys.exit(main())
