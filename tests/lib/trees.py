"""Trees for the commands of contrib/tree: folders with packages, in which these run with the built programs or with scripts in their place."""
import contextlib
import os
import pathlib
import resource
import shutil
import signal
import subprocess
import sys
import tempfile

from .folders import new_folder
from .runs import PATIENCE, environment_with
from .scenes import TOP, Wrong

TREE = TOP / "contrib" / "tree"
FEW = 60
ODD, EVEN = b'f( name="x",deps=[":a"] )\n', b'f(\n    name = "x",\n    deps = [":a"],\n)\n'
SIGNALS = (signal.SIGINT, signal.SIGTERM, signal.SIGHUP)
# a program that takes its time, and says which process it is; and one that waits for a file in the workspace, if it runs there
SLOW = """#!/bin/sh
echo $$ >> "{pids}"
sleep {seconds}
exec {program} "$@"
"""
WAITING = """#!/bin/sh
while [ -e MODULE.bazel ] && [ ! -e go ]; do sleep 0.05; done
exec {program} "$@"
"""


class Place(Wrong):
    """A folder with a tree, and what is wrong there."""

    def __init__(self, programs, folder, scratch):
        super().__init__()
        self.programs, self.folder, self.scratch = dict(zip(["buildozer", "buildifier"], programs)), folder, scratch
        self.path = self.scratch / "bin"
        self.path.mkdir()
        for name, file in self.programs.items():
            (self.path / name).symlink_to(file)
        self.environment = {**environment_with(self.path), "HOME": str(self.scratch), "GIT_CEILING_DIRECTORIES": str(self.folder.parent)}

    def put(self, files):
        for name, content in files.items():
            file = os.path.join(os.fsencode(self.folder), os.fsencode(name))
            os.makedirs(os.path.dirname(file), exist_ok=True)
            with open(file, "wb") as written:
                written.write(content)

    def git(self, *words):
        identity = ["-c", "user.name=a", "-c", "user.email=a@b", "-c", "init.defaultBranch=main"]
        subprocess.run(["git", *identity, *words], cwd=self.folder, env=self.environment, check=True, capture_output=True, timeout=PATIENCE)

    def files(self):
        """What is in each file, by its name; a link is its path. Left out are those of git, journals, and what a process that is killed leaves."""
        found = {}
        for folder, folders, names in os.walk(os.fsencode(self.folder)):
            folders[:] = [name for name in folders if name != b".git"]
            for name in (name for name in names if not name.endswith((b".journal", b".bznew"))):
                file = os.path.join(folder, name)
                found[os.fsdecode(os.path.relpath(file, os.fsencode(self.folder)))] = (
                    os.readlink(file) if os.path.islink(file) else pathlib.Path(os.fsdecode(file)).read_bytes()
                )
        return found

    def start(self, command, *words, here=".", **how):
        """Starts one of the commands; `how` has what subprocess takes."""
        pipes = {"stdin": subprocess.DEVNULL, "stdout": subprocess.PIPE, "stderr": subprocess.PIPE}
        # where this script was started to pass over a signal, what it runs must not
        how = {"preexec_fn": let_signals, **pipes, **how}
        return subprocess.Popen([sys.executable, "-IS", TREE / command, *words], cwd=self.folder / here, env=self.environment, **how)

    def run(self, command, *words, here=".", text=None, **how):
        """The status, standard output, and the lines of standard error."""
        with self.start(command, *words, here=here, **{"stdin": subprocess.PIPE, **how}) as process:
            out, err = process.communicate(text, timeout=PATIENCE)
        return process.returncode, out, err.decode(errors="surrogateescape").split("\n")[:-1]

    def wants_files(self, what, wanted):
        files = self.files()
        other = [name for name in {**files, **wanted} if files.get(name) != wanted.get(name)]
        self.expect(what, [(name, files.get(name)) for name in other[:3]], [(name, wanted.get(name)) for name in other[:3]])

    def slow(self, program, seconds):
        """Puts a program that takes its time in the place of one; gives the file with the numbers of its processes."""
        pids = self.scratch / "pids"
        pids.unlink(missing_ok=True)
        self.replace(program, SLOW.format(pids=pids, seconds=seconds, program=self.programs[program]))
        return pids

    def replace(self, program, script):
        """Puts a script in the place of a program."""
        file = self.path / program
        file.unlink()
        file.write_text(script)
        file.chmod(0o755)

    def fast(self, program):
        (self.path / program).unlink()
        (self.path / program).symlink_to(self.programs[program])


def let_signals():
    for number in SIGNALS:
        signal.signal(number, signal.SIG_DFL)


def made(count, text=ODD):
    """So many packages, some in one another."""
    return {f"p{i % 40}/q{i}/BUILD{'.bazel' * (i % 3 == 0)}": text.replace(b'"x"', b'"x%d"' % i) for i in range(count)}


def is_alive(pid):
    """Whether a process runs; one that has ended and was not waited for doesn't."""
    try:
        return pathlib.Path(f"/proc/{pid}/stat").read_text().rpartition(")")[2].split()[0] != "Z"
    except OSError:
        return False


def alive(pids):
    """The processes of a file with their numbers that run."""
    return [pid for pid in pids.read_text().split() if is_alive(pid)]


def limited(**limits):
    """What a process does before it runs: it is held to some of what resource knows by these names, and no signal is passed over."""

    def hold():
        let_signals()
        for kind, most in limits.items():
            resource.setrlimit(getattr(resource, f"RLIMIT_{kind}"), (most, most))

    return {"preexec_fn": hold}


@contextlib.contextmanager
def place(programs):
    with new_folder() as folder, tempfile.TemporaryDirectory() as scratch:
        tree = pathlib.Path(folder, "tree")
        tree.mkdir()
        yield Place(programs, tree, pathlib.Path(scratch))


def with_git(scene, say):
    """A scene that needs git, of which is said where there is none."""

    def tried(place):
        if not shutil.which("git"):
            say(f"{scene.__name__} was not run: there is no git")
            return
        scene(place)

    return tried
