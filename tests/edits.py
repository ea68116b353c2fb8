#!/usr/bin/env python3
"""Tries the edits of edits/CRATE, each of which the prover must refuse: wrong bodies beside those that the gate tries.

    tests/edits.py [CRATE..]

With no CRATE it tries those of all crates that have a folder below edits/. The gate tries the few of crates/CRATE/must-fail
alone, since each takes minutes or a part of one; these are for whoever changes a contract.

Several crates are tried at a time, each in a copy of the crates beside the repository, so no source is touched, and the copies
go when the run ends, however it ends. Libraries that are proved already are taken as they are, and what the last check of a
crate kept is taken too; what is missing is proved there first, so 'make' before this saves time.

An edit is tried on the function that it changes, by rt check --only: as the proof of a function rests on its own body and on
the contracts of what it calls, a body that is refused there is refused in the crate. An edit for which that gives no refusal
(it changes no single function, or it is proved there) is tried on the whole crate, by rt must-fail.

For each edit there is a line when it was tried, and at the end once more one for each that was not refused; the last line is
'N passed, M failed'. JOBS in the environment is how many processors are used. Without it these are all, as far as there is
memory for as many checks.
"""
import concurrent.futures
import pathlib
import queue
import re
import shutil
import signal
import subprocess
import sys
import tempfile
import threading
import time

sys.path.append(str(pathlib.Path(__file__).resolve().parent.parent / "tools"))
from build import processors
from crates import TOP, copy_sources, libraries_of, take_library

EDITS = TOP / "edits"
# how long one check may take, in seconds: the search for a proof that isn't there can be without an end
LONGEST = 900
# what a check of some functions ends with: how many were requested, and how many were proved
ENDED = re.compile(r"^only=(\d+) proved=(\d+)", re.MULTILINE)
# where the prover stops, and what it says there
ERROR = re.compile(r"^(?:note: )?(\S+:\d+:\d+: .*error.*|\S+\.(?:rt|antt):\d+:\d+: .*)", re.MULTILINE)
# a proof that names what the edit took away says little of the contract
NAMES = re.compile(r"(?:\./)?proofs/.*(?:has no field|is not in scope|has no `|was not admitted)")
REFUSED = re.compile(r"rt: must-fail (\w+/\S+\.edit): refused, as it must be(.*)")
PROVED = re.compile(r"rt: must-fail (\w+/\S+\.edit): NOT REFUSED")
HEAD_OF_IMPL = re.compile(r"impl(?:<[^{]*?>)? (?:[\w:]+(?:<[^{]*?>)? for )?(\w+)")
HEAD_OF_FUNCTION = re.compile(r"\s*(?:pub(?:\([^)]*\))? )?(?:const )?fn (\w+)")


class NotApplied(Exception):
    """An edit that does not fit the sources, and why."""


def edits_of(crate):
    return sorted((EDITS / crate).glob("*.edit"))


def pairs_of(edit):
    """The pairs of an edit: file, old text, new text."""
    file, old, pairs = "", "", []
    for line in edit.read_text().split("\n"):
        word, _, text = line.partition(": ")
        if word == "file":
            file = text.strip()
        elif word == "old":
            old = text
        elif word in ("new", "new:"):
            pairs.append((file, old, text))
    return pairs


def apply(edit, folder):
    """The texts of the files that an edit changes, and the functions that it changes. NotApplied: it does not fit."""
    texts, functions = {}, []
    for file, old, new in pairs_of(edit):
        text = texts.get(file) or (folder / file).read_text()
        if text.count(old) != 1:
            raise NotApplied(f"an 'old:' text is in {file} {text.count(old)} times, and not once")
        functions.append(function_at(file, text, text.index(old)))
        texts[file] = text.replace(old, new)
    if not texts:
        raise NotApplied("it has no 'old:' and 'new:' pair")
    return texts, list(dict.fromkeys(functions))


def function_at(file, text, place):
    """The path, below its crate, of the function that is around a place of a file of src/; '' where none does."""
    module = [part for part in pathlib.PurePath(file).with_suffix("").parts[1:] if part not in ("lib", "main", "mod")]
    owner, function, is_inside = "", "", False
    for line in text[:place].split("\n") + [text[place:].split("\n")[0]]:
        if line.startswith("}"):
            owner, is_inside = "", False
        elif found := HEAD_OF_IMPL.match(line):
            owner = found[1]
        elif found := HEAD_OF_FUNCTION.match(line):
            function, is_inside = found[1], True
    return "::".join([*module, *([owner] if owner else []), function]) if file.startswith("src/") and is_inside else ""


def run(command, folder):
    """Runs a command, and gives its status (None where it took too long) and what it printed."""
    how = {"stdout": subprocess.PIPE, "stderr": subprocess.STDOUT, "stdin": subprocess.DEVNULL, "text": True, "errors": "replace"}
    with subprocess.Popen(command, cwd=folder, **how) as started:
        with RUNNING_LOCK:
            RUNNING.add(started)
        try:
            said = started.communicate(timeout=LONGEST)[0]
            return started.returncode, said
        except subprocess.TimeoutExpired:
            started.terminate()
            return None, started.communicate()[0]
        finally:
            with RUNNING_LOCK:
                RUNNING.discard(started)


# the commands that run now, which an end that is requested ends too, and whether it was requested
RUNNING, RUNNING_LOCK, ENDS = set(), threading.Lock(), threading.Event()


def why_refused(said):
    """What a check says where it refuses, in one line."""
    told = ERROR.findall(said)
    meant = [line for line in told if not NAMES.match(line)]
    if told and not meant:
        return f" (only because a proof names what the edit took away, which says little of the contract): {told[0][:160]}"
    return f": {meant[0][:160]}" if meant else ""


def why_refused_alone(texts, function, crate):
    """What a check of the function that an edit changes says where it refuses that, or a check of its module where it is a method of a
    trait, whose name is another one; None where neither does."""
    own = {file: (crate / file).read_text() for file in texts}
    try:
        for file, text in texts.items():
            (crate / file).write_text(text)
        for path in (function, function.partition("::")[0]):
            status, said = run(["rt", "check", "--jobs", "1", "--only", path], crate)
            if status is None:
                return f": no proof was found in {LONGEST} seconds"
            ended = ENDED.search(said)
            if ended:
                return why_refused(said) if status == 1 and int(ended[2]) < int(ended[1]) else None
    finally:
        for file, text in own.items():
            (crate / file).write_text(text)
    return None


def is_refused_whole(edit, copy, crate):
    """Whether a whole crate is refused with an edit, by rt must-fail, and a line about it."""
    tried = copy / "crates" / crate / "must-fail"
    shutil.rmtree(tried, ignore_errors=True)
    tried.mkdir()
    shutil.copy(edit, tried)
    try:
        _, said = run(["rt", "must-fail", crate], copy)
    finally:
        shutil.rmtree(tried)
    refused = REFUSED.search(said)
    if refused:
        return True, f"refused in the whole crate{refused[2]}"
    return False, "is still proved" if PROVED.search(said) else f"was not tried: {said.strip()[-400:]}"


def try_edit(edit, copy):
    """Whether the prover refuses an edit, and a line about it."""
    crate = edit.parent.name
    try:
        texts, functions = apply(edit, TOP / "crates" / crate)
    except NotApplied as why:
        return False, f"does not fit the sources: {why}"
    if len(functions) == 1 and functions[0]:
        why = why_refused_alone(texts, functions[0], copy / "crates" / crate)
        if why is not None:
            return True, f"refused{why}"
    if ENDS.is_set():
        return False, "was not tried: the run was ended"
    return is_refused_whole(edit, copy, crate)


def take_kept(crate, copy):
    """Takes over what the last check of a crate kept."""
    kept = TOP / "crates" / crate / "out" / "incremental"
    if kept.exists():
        shutil.copytree(kept, copy / "crates" / crate / "out" / "incremental", dirs_exist_ok=True)


def try_crate(crate, copies):
    """Tries the edits of a crate in one of the copies, and gives for each whether it was refused, and why not."""
    copy, found = copies.get(), {}
    try:
        for library in libraries_of():
            take_library(library, TOP, copy)
        take_kept(crate, copy)
        for edit in edits_of(crate):
            if ENDS.is_set():
                break
            began = time.monotonic()
            found[edit] = try_edit(edit, copy)
            print(f"edits/{crate}/{edit.name} {found[edit][1]} ({time.monotonic() - began:.0f} seconds)", flush=True)
        shutil.rmtree(copy / "crates" / crate / "out", ignore_errors=True)
    finally:
        copies.put(copy)
    return found


def try_all(chosen, count):
    """Tries the edits of crates, so many crates at a time, those with the most edits first."""
    with tempfile.TemporaryDirectory(prefix=f"{TOP.name}-edits-", dir=TOP.parent) as folder:
        copies = queue.SimpleQueue()
        for number in range(count):
            copy = pathlib.Path(folder, str(number))
            copy.mkdir()
            copy_sources(copy, without=("must-fail",))
            copies.put(copy)
        lanes = concurrent.futures.ThreadPoolExecutor(count)
        try:
            tried = [lanes.submit(try_crate, crate, copies) for crate in sorted(chosen, key=lambda crate: -len(edits_of(crate)))]
            return {edit: result for crate in tried for edit, result in crate.result().items()}
        finally:
            ENDS.set()
            lanes.shutdown(wait=False, cancel_futures=True)
            with RUNNING_LOCK:
                for command in RUNNING:
                    command.terminate()
            lanes.shutdown()


def main():
    # An end that is requested is an end as any other, so that the copies are removed.
    signal.signal(signal.SIGTERM, lambda *_: sys.exit(143))
    chosen = sys.argv[1:] or [name for name in libraries_of() if edits_of(name)]
    unknown = [name for name in chosen if name not in libraries_of() or not edits_of(name)]
    if unknown or not chosen:
        print(f"there are no edits of {', '.join(unknown) or 'any crate'} below edits/", file=sys.stderr)
        return 1
    found = try_all(chosen, min(processors(), len(chosen)))
    failed = {edit: why for edit, (refused, why) in found.items() if not refused}
    for edit, why in failed.items():
        print(f"edits/{edit.parent.name}/{edit.name} {why}")
    print(f"{len(found) - len(failed)} passed, {len(failed)} failed")
    return 1 if failed else 0


if __name__ == "__main__":
    try:
        sys.exit(main())
    except KeyboardInterrupt:
        sys.exit(130)
