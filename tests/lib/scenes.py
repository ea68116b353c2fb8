"""The scenes of a script: functions, each with a name, that find what is wrong; and the report of those that fail.

HOSTILE=whole in the environment has scripts of hostile use do all of their work, as 'make hostile' does; else they take a sample of it,
always the same one, which is what the gate has time for.
"""

import concurrent.futures
import contextlib
import os
import pathlib
import random
import subprocess
import sys

TOP = pathlib.Path(__file__).resolve().parents[2]
WHOLE = os.environ.get("HOSTILE") == "whole"
PROCESSORS = len(os.sched_getaffinity(0))


def sample(things, count):
    """All of them, or so many of them where a sample is enough; the first and the last are among these."""
    things = list(things)
    if WHOLE or len(things) <= count:
        return things
    chosen = set(random.Random(count).sample(range(len(things)), count - 2)) | {0, len(things) - 1}
    return [thing for number, thing in enumerate(things) if number in chosen]


def named(*functions):
    """Scenes under the names of their functions."""
    return {function.__name__.replace("_", " "): function for function in functions}


def different(what, is_, wanted):
    return [] if is_ == wanted else [f"{what}: {is_!r}, and not {wanted!r}"[:1500]]


class Wrong:
    """What is wrong in a place."""

    def __init__(self):
        self.wrong = []

    def expect(self, what, is_, wanted):
        self.wrong += different(what, is_, wanted)


class Scenes:
    """The scenes of a script by their names. What they need is set up once for all by `setting`, of the built programs, which gives None
    where nothing can be tried; and for each by `place`, of what the setting gives. Both are for `with`; without them a scene gets the programs."""

    def __init__(self, file, scenes, setting=lambda *programs: contextlib.nullcontext(programs), place=contextlib.nullcontext, lanes=1):
        self.script = pathlib.Path(file).resolve().relative_to(TOP)
        self.scenes, self.setting, self.place, self.lanes = scenes, setting, place, lanes

    def say(self, what):
        print(f"{self.script}: {what}", flush=True)

    def wrong(self, scene, given):
        """What is wrong: the list that a scene gives, or else what is noted in its place; one may also give whether all is right."""
        try:
            with self.place(given) as place:
                found = scene(place)
        except (OSError, subprocess.SubprocessError) as error:
            return [repr(error)[:500]]
        return found if isinstance(found, list) else place.wrong or ["it fails"] * (found not in (None, True))

    def all_wrong(self, programs):
        """What is wrong in each scene, by its name."""
        with contextlib.ExitStack() as stack:
            try:
                given = stack.enter_context(self.setting(*programs))
            except (OSError, subprocess.SubprocessError, SyntaxError) as error:
                return dict.fromkeys(self.scenes, [repr(error)[:500]])
            if given is None:
                return {}
            lanes = stack.enter_context(concurrent.futures.ThreadPoolExecutor(self.lanes)).map if self.lanes > 1 else map
            return dict(zip(self.scenes, lanes(lambda scene: self.wrong(scene, given), self.scenes.values())))

    def counts(self, *programs):
        """How many scenes passed and failed over the programs; of each that failed a few things are printed that are wrong in it."""
        failed = {name: wrong for name, wrong in self.all_wrong(programs).items() if wrong}
        for name, wrong in failed.items():
            self.say("; ".join([name, *wrong[:5], *[f"and {len(wrong) - 5} more"] * (len(wrong) > 5)]))
        return len(self.scenes) - len(failed), len(failed)

    def main(self):
        """Runs the script alone."""
        passed, failed = self.counts(*(pathlib.Path(word).resolve() for word in sys.argv[1:]))
        print(f"{passed} passed, {failed} failed")
        sys.exit(1 if failed else 0)
