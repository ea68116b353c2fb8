"""Runs of the built programs that are refused memory."""

import collections
import contextlib
import os
import threading

from .folders import files_in, new_folder, put
from .preloaded import environment, preloaded
from .runs import ended

# Requests at most of one run; there are a few hundred.
MOST = 100_000

# What a run leaves: the status, standard output, and standard error, of which None takes any.
Left = collections.namedtuple("Left", "status out err", defaults=[b"", b""])


class Refusing:
    """The built programs, and the library that refuses memory."""

    def __init__(self, programs, library):
        self.programs = programs
        self.library = library
        # in how many runs a request was refused
        self.met = 0
        self.counting = threading.Lock()

    def ended(self, row, refused, folder=None):
        """What a run leaves, and whether it was refused what `refused` says."""
        ours, its = os.pipe()
        how = {"env": environment(self.library, REFUSED=refused, REFUSED_TOLD=its), "pass_fds": [its]}
        left = Left(*ended([self.programs[row.program], *row.words], folder, input=row.text, **how))
        os.close(its)
        with open(ours, "rb") as report:
            was_refused = bool(report.read())
        with self.counting:
            self.met += was_refused
        return left, was_refused

    def over_files(self, row, refused):
        """The same of a row with files, and what is in these after it, but for those whose names end in .bznew."""
        with new_folder() as folder:
            put(folder, row.files)
            left, was_refused = self.ended(row, refused, folder)
            return left, {name: text for name, text in files_in(folder).items() if not name.endswith(".bznew")}, was_refused

    def sweep(self, row, mark):
        """What each run left, with the number of the request that it was refused; the last one was refused none."""
        found = []
        for number in range(1, MOST):
            left, was_refused = self.ended(row, f"{number}{mark}")
            found.append((f"request {number}{mark}", left))
            if not was_refused:
                return found
        return [*found, ("each request", "no end")]

    def requests(self, row):
        """How many requests a run of a row makes, where none is refused."""
        low, high = 0, 1
        while self.over_files(row, f"{high}-")[2]:
            low, high = high, high * 2
        while high - low > 1:
            middle = (low + high) // 2
            low, high = (middle, high) if self.over_files(row, f"{middle}-")[2] else (low, middle)
        return low


@contextlib.contextmanager
def refusing(programs):
    """The programs by their names under that library; in how many runs a request was refused is printed at the end."""
    with preloaded("refused") as (library,):
        found = library and Refusing(programs, library)
        yield found
        if found:
            print(f"in {found.met} runs a request for memory was refused", flush=True)
