"""Runs of the built programs: as whom, for how long, and what they leave."""

import collections
import contextlib
import os
import resource
import shutil
import subprocess
import tempfile

# how long a run over many files may take, in seconds, before it counts as one that hangs
PATIENCE = 300
# a user and a group without rights of their own
NOBODY = 65534

# What a run leaves: the status and both outputs.
Ended = collections.namedtuple("Ended", "status out err")


def ended(command, folder, **how):
    """What a run leaves, whose standard input is empty where none is given."""
    stdin = {} if "input" in how else {"stdin": subprocess.DEVNULL}
    run = subprocess.run(command, cwd=folder, capture_output=True, **{"timeout": PATIENCE, **stdin, **how})
    return Ended(run.returncode, run.stdout, run.stderr)


def as_nobody(folder):
    """How a program is run in a folder by a user to whom rights count: as root it is nobody, whose the files become."""
    if os.geteuid() != 0:
        return {}
    for file in [folder, *folder.rglob("*")]:
        os.chown(file, NOBODY, NOBODY, follow_symlinks=False)
    return {"user": NOBODY, "group": NOBODY, "extra_groups": []}


@contextlib.contextmanager
def copies(*programs):
    """The programs by their names, buildozer first, each copied to where any user may run it."""
    with tempfile.TemporaryDirectory() as folder:
        copied = {name: shutil.copy(program, f"{folder}/{name}") for name, program in zip(["buildozer", "buildifier"], programs)}
        for path in (folder, *copied.values()):
            os.chmod(path, 0o755)
        yield copied


def held_to(kind, count):
    """Has a program get no more than this of a resource, as of addresses or of the size of a file."""
    return lambda: resource.setrlimit(kind, (count, count))


def environment_with(path):
    """The environment with a folder on the PATH, in which git knows of no repository and no settings of the user."""
    rest = {name: value for name, value in os.environ.items() if not name.startswith("GIT_")}
    settings = {"GIT_CONFIG_GLOBAL": os.devnull, "GIT_CONFIG_NOSYSTEM": "1"}
    return {**rest, **settings, "PATH": f"{path}{os.pathsep}{os.environ['PATH']}"}
