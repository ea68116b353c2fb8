"""Runs of the built programs that wait, or are killed, at a call of the system, while another program does something."""

import errno
import os
import re
import shutil
import stat
import subprocess

from .folders import put
from .preloaded import environment
from .runs import PATIENCE, Ended
from .scenes import Wrong

# calls at most of one kind in one run
MOST = 100
FILE, NEW, JOURNAL = "BUILD", "BUILD.bznew", "BUILD.journal"
FIRST = b'f(name = "x")\n'
UNWRITTEN = (2, b"", b"BUILD: cannot write\n")
FIXED = (0, b"", b"fixed BUILD\n")
ODD, EVEN = b"x=1\n", b"x = 1\n"
# the status of a run in which something failed
FAILED = {"buildifier": 3, "buildozer": 2}
# where what comes may be lost: after the last look at the file, when it is seen that the new file has its name still, and before its rename
LATE = re.compile(r"rename \d+ \(rename BUILD\.bznew\)|statx \d+ \(statx(?: BUILD\.bznew)?\)")
MOST_LATE = 3

# ways to fail, by what is called
WAYS = {
    "open": [errno.EIO, errno.EACCES, errno.ENOENT, errno.EMFILE, errno.EINTR],
    "read": [errno.EIO, errno.EINTR, errno.EISDIR, "short"],
    "write": [errno.EIO, errno.ENOSPC, errno.EINTR, errno.EPIPE, "short", "none"],
    "fsync": [errno.EIO, errno.ENOSPC, errno.EINTR],
    "rename": [errno.EIO, errno.ENOSPC, errno.EINTR],
    "unlink": [errno.EIO],
    "statx": [errno.EIO, errno.EINTR],
    "fchmod": [errno.EPERM],
    "flock": [errno.EWOULDBLOCK, errno.EIO, errno.EINTR, errno.EOPNOTSUPP],
    "close": [errno.EIO],
}


def add(label):
    return [f"add deps {label}", "//:x"]


def bits_of(file):
    return stat.S_IMODE(file.stat().st_mode)


class Place(Wrong):
    """A folder with a file in which the programs run under the library by which calls fail, and what is wrong there."""

    def __init__(self, programs, library, folder):
        super().__init__()
        self.programs, self.library, self.folder = programs, library, folder
        put(folder, {FILE: FIRST})

    def text(self):
        return (self.folder / FILE).read_bytes()

    def start(self, words, program="buildozer", **how):
        pipes = {"stdin": subprocess.DEVNULL, "stdout": subprocess.PIPE, "stderr": subprocess.PIPE}
        return subprocess.Popen([self.programs[program], *words], cwd=self.folder, **pipes, **how)

    def ended(self, words, program="buildozer", **how):
        """The status and both outputs of a run."""
        return outcome(self.start(words, program, **how))

    def failing(self, words, call, number, way, program="buildozer", **further):
        """A run that is stopped or killed at a call, or at which a file is changed, and the file of the line that says so."""
        ours, its = os.pipe()
        how = environment(self.library, FAILING_TOLD=its, FAILING_CALL=call, FAILING_NUMBER=number, FAILING_HOW=way, **further)
        run = self.start(words, program, env=how, pass_fds=[its])
        os.close(its)
        return run, open(ours)


def outcome(run):
    out, err = run.communicate(timeout=PATIENCE)
    return Ended(run.returncode, out, err)


def emptied(folder):
    for file in folder.iterdir():
        shutil.rmtree(file) if file.is_dir() and not file.is_symlink() else file.unlink()


def calls(p, words, way, program="buildozer", text=FIRST, folders=False):
    """Each call of a run of these words over a file with a text, with the run, which waits there or is killed. The file is in the
    folder, or, where there are folders, in one of them that a link names."""
    for call in [*WAYS, "fchown"]:
        for number in range(1, MOST):
            emptied(p.folder)
            put(p.folder, {f"one/{FILE}" if folders else FILE: text})
            if folders:
                (p.folder / "now").symlink_to("one")
            run, lines = p.failing(words, call, number, way, program)
            with lines:
                line = lines.readline()
                if not line:
                    outcome(run)
                    break
                if way == "stop":
                    # it reports before it waits
                    os.waitid(os.P_PID, run.pid, os.WSTOPPED)
                yield f"{call} {number} ({line.strip()})", run
