"""How a command runs from its words to its status, whatever fails."""
import os
import signal
import sys

from . import git
from .processes import Stopped, end_by, stops
from .state import Unreadable
from .terminal import Screen
from .words import Usage

STOPPED = "stopped by {}; the same command goes on"


def run_as(name, run, usage, failed):
    """Runs a command, a function of its words and of the screen that gives its status and the signal that stopped it; gives the status."""
    if sys.getfilesystemencoding() != "utf-8":  # so that names mean the same in each locale
        os.execv(sys.executable, [sys.executable, "-ISX", "utf8", *sys.argv])
    screen = Screen()
    try:
        with stops():
            status, stopped = run(sys.argv[1:], screen)
    except Usage as fault:
        screen.clear()
        screen.say(f"{name}: {fault}")
        screen.say(f"{name}: see {name} --help")
        return usage
    except Stopped as signalled:
        status, stopped = failed, signalled.args[0]
        screen.clear()
        screen.say(STOPPED.format(signal.Signals(stopped).name))
    except (git.GitError, Unreadable, OSError, MemoryError, RecursionError) as fault:
        screen.clear()
        for line in said_of(fault).split("\n"):
            screen.say(f"{name}: {line}")
        return failed
    if stopped is not None:
        end_by(stopped)
    return status


def said_of(fault):
    """What is said of a fault that ends a run."""
    if isinstance(fault, OSError):
        return ": ".join(str(part) for part in (fault.filename, fault.strerror) if part) or repr(fault)
    if isinstance(fault, (MemoryError, RecursionError)):
        return "Memory"
    return f"git: {fault}" if isinstance(fault, git.GitError) else str(fault)
