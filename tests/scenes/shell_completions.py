#!/usr/bin/env python3
"""Makes the completions, and tries them in each shell that is there, in a folder with a few packages: in bash by what its function
replies, and in bash, zsh and fish by what a line becomes that is typed on a terminal, with a tab after it.

    tests/scenes/shell_completions.py BUILDOZER
"""
import fcntl
import os
import pty
import shutil
import signal
import struct
import subprocess
import tempfile
import termios
import threading
import time

from lib.folders import in_folder
from lib.pages import TREES
from lib.scenes import TOP, Scenes

# a name with a space, one with signs that a shell reads, and a rule without a name
BUILD = """cc_library(name = "x")\ncc_test(name = "xt")\ngenrule(name = "two words")\nf(name = "odd'$x")\nf()\n"""
FILES = {"BUILD": BUILD, "app/BUILD.bazel": 'f(name = "main")\n', "app/core/BUILD": 'f(name = "core")\n', "bad/BUILD": "f(\n"}
PLACES = {"bash": "bash-completion/completions", "zsh": "zsh/site-functions", "fish": "fish/vendor_completions.d"}
# how long a shell may take, which reads all its completions first
SECONDS = 60
TAB, TELL = "\t", "\x07"

# What bash's function replies to a line: the texts from where readline begins to replace.
REPLIES = [
    ("buildozer ad", ["'add "]),
    ("buildozer de", ["delete"]),
    ("buildozer 'set", ["set ", "set_if_absent ", "set_select "]),
    ("buildozer 'add de", ["add defines ", "add deps "]),
    ("buildozer 'add deps ", [r"add deps :odd'\''$x", r"add deps :two\ words", "add deps :x", "add deps :xt", "add deps //"]),
    ("buildozer 'add deps :x", ["add deps :x", "add deps :xt"]),
    ("buildozer 'add size ", []),
    ("buildozer 'add deps :x //app:", ["add deps :x //app:main"]),
    ("buildozer 'set kind c", ["set kind cc_library", "set kind cc_test"]),
    ("buildozer 'set deps c", []),
    ("buildozer 'new cc", ["new cc_library ", "new cc_test "]),
    ("buildozer 'new f a a", ["new f a after ", "new f a after .."]),
    ("buildozer 'new f a after x", ["new f a after x", "new f a after xt"]),
    ("buildozer 'copy deps x", ["copy deps x", "copy deps xt"]),
    (r"buildozer 'copy deps odd'\''", ["$x"]),
    ('buildozer "copy deps odd', [r"copy deps odd'\$x"]),
    ("buildozer 'print k", ["print kind"]),
    ("buildozer 'fix ", ["fix unusedLoads", "fix movePackageToTop"]),
    ("buildozer delete //", ["//:", "//app:", "//app/", "//bad:"]),
    ("buildozer delete //app", ["//app:", "//app/"]),
    ("buildozer delete //app/core:", ["core", "all", "__pkg__"]),
    ("buildozer delete app:m", ["main"]),
    ("buildozer delete //:%c", ["%cc_library", "%cc_test"]),
    ("buildozer delete //bad:", ["all", "__pkg__"]),
    ("buildozer delete //none:", ["all", "__pkg__"]),
    ("buildozer delete -- -:", ["all", "__pkg__"]),
    ("buildozer delete :", [r"odd\'\$x", "x", "xt", "all", "__pkg__"]),
    ("buildozer --", ["--stdout", "--quiet", "--journal", "--profile=", "--help", "--version"]),
    ("buildozer -f lines d", []),
    ("buildozer 'delete'd", []),
    ("buildifier --m", ["--mode="]),
    ("buildifier --t", ["--type="]),
    ("buildifier --type=b", ["build", "bzl"]),
    ("buildifier --mode=", ["fix", "check", "print_if_changed"]),
    ("buildifier --mode=c", ["check"]),
    ("buildifier -- --", []),
    ("buildifier-tree --m", ["--mode="]),
    ("buildifier-tree --mode=", ["fix", "check", "diff"]),
    ("buildifier-tree --d", ["--diff-from="]),
    ("buildozer-tree --s", ["--stdout", "--state="]),
    ("buildozer-tree 'add de", ["add defines ", "add deps "]),
    ("buildozer-tree delete //app:", ["main", "all", "__pkg__"]),
]

# What becomes of a line in each shell: its words, once a quotation mark is closed that is still open.
LINES = [
    ("buildozer 'ad", "'", ["add "]),
    ('buildozer "add dep', '"', ["add deps "]),
    ("buildozer 'add deps :xt", "", ["add deps :xt"]),
    ("buildozer 'copy deps od", "", ["copy deps odd'$x"]),
    ('buildozer "copy deps od', "", ["copy deps odd'$x"]),
    ("buildozer 'copy deps tw", "", [r"copy deps two\ words"]),
    (r"buildozer add\ dep", "", ["add deps "]),
    ("buildozer del", "", ["delete"]),
    ("buildozer 'delete' :od", "", ["delete", ":odd'$x"]),
    ("buildozer 'delete' //app/c", "", ["delete", "//app/core:"]),
    ("buildozer 'delete' //app:ma", "", ["delete", "//app:main"]),
    ("buildozer --qu", "", ["--quiet"]),
    ("buildozer -f BUI", "", ["-f", "BUILD"]),
    ("buildifier --mode=ch", "", ["--mode=check"]),
    ("buildifier BUI", "", ["BUILD"]),
    ("buildifier-tree --bz", "", ["--bzl"]),
    ("buildifier-tree --mode=di", "", ["--mode=diff"]),
    ("buildozer-tree --jou", "", ["--journal"]),
    ("buildozer-tree 'delete' //app:ma", "", ["delete", "//app:main"]),
]

# How a shell is begun, and what it is given first: where the completions are, and a key by which it adds the line to a file and
# forgets it.
BASH = """for file in "$SHARE"/*; do . "$file"; done
tell() { printf '%s\\n' "$READLINE_LINE" >> "$LINE"; READLINE_LINE=; }; bind -x '"\\C-g": tell'
"""
ZSH = """fpath=("$SHARE" $fpath); autoload -Uz compinit; compinit -u -D
tell() { print -r -- "$BUFFER" >> "$LINE"; BUFFER= }; zle -N tell; bindkey '^G' tell
"""
FISH = """for file in $SHARE/*.fish; source $file; end
bind \\cg 'commandline >> $LINE; commandline ""'
"""
SHELLS = {"bash": (["--norc", "--noprofile", "-i"], BASH), "zsh": (["-f", "-i"], ZSH), "fish": (["-i"], FISH)}

REPLY = """for file in "$SHARE"/*; do . "$file"; done
while IFS= read -r COMP_LINE; do
    COMP_POINT=${#COMP_LINE} COMPREPLY=()
    "_${COMP_LINE%% *}" "${COMP_LINE%% *}" "${COMP_LINE##*[ =]}"
    printf '%s\\t' "${COMPREPLY[@]}" && echo
done
"""


class Place:
    """A folder with packages, completions and the program."""

    def __init__(self, program, path):
        self.path, self.work = path, path / "work"
        for name, text in FILES.items():
            (self.work / name).parent.mkdir(parents=True, exist_ok=True)
            (self.work / name).write_text(text)
        (self.path / "bin").mkdir()
        shutil.copy(program, self.path / "bin" / "buildozer")
        for tree in TREES:
            (self.path / "bin" / tree.name).symlink_to(tree)
        subprocess.run([TOP / "tools" / "completions.py", self.path / "share"], check=True, timeout=SECONDS)

    def environment(self, shell):
        """The variables of a shell that finds no one's own settings."""
        path = f"{self.path / 'bin'}{os.pathsep}{os.environ['PATH']}"
        own = {"HOME": self.path, "XDG_CONFIG_HOME": self.path, "XDG_DATA_HOME": self.path, "XDG_CACHE_HOME": self.path}
        more = {"PATH": path, "SHARE": self.path / "share" / PLACES[shell], "LINE": self.path / "line", "TERM": "xterm", "LC_ALL": "C"}
        return {name: str(value) for name, value in {**own, **more}.items()}


class Terminal:
    """A shell on a terminal."""

    def __init__(self, shell, place):
        words, first = SHELLS[shell]
        self.line = place.path / "line"
        (place.path / "first").write_text(first)
        self.id, self.end = pty.fork()
        if self.id == 0:
            os.chdir(place.work)
            os.execvpe(shell, [shell, *words], place.environment(shell))
        fcntl.ioctl(self.end, termios.TIOCSWINSZ, struct.pack("HHHH", 50, 200, 0, 0))
        self.reading = threading.Thread(target=self.read, daemon=True)
        self.reading.start()
        self.type(f"{'source' if shell == 'fish' else '.'} {place.path}/first; echo ready >> {self.line}\r")
        self.ready = self.wait(1)

    def read(self):
        """Reads what the shell writes, so that it goes on, and answers what it requests of the terminal."""
        try:
            while written := os.read(self.end, 65536):
                if b"\x1b[c" in written or b"\x1b[0c" in written:
                    self.type("\x1b[?62;c")
        except OSError:
            pass

    def type(self, keys):
        os.write(self.end, keys.encode())

    def lines(self):
        return self.line.read_text().splitlines() if self.line.exists() else []

    def wait(self, count):
        """Waits until the shell has written that many lines, and gives whether it has."""
        until = time.monotonic() + SECONDS
        while len(self.lines()) < count and time.monotonic() < until:
            time.sleep(0.02)
        return len(self.lines()) >= count

    def completed(self, typed):
        """What becomes of a line, if the shell writes it."""
        told = len(self.lines()) + 1
        self.type(typed + TAB + TELL)
        return self.lines()[told - 1] if self.wait(told) else None

    def close(self):
        os.kill(self.id, signal.SIGKILL)
        os.waitpid(self.id, 0)
        self.reading.join(SECONDS)
        os.close(self.end)


# ---- scenes


def is_there(shell):
    found = shutil.which(shell) and os.path.exists("/dev/ptmx")
    if not found:
        SCENES.say(f"not run in {shell}, which is not there, or has no terminal")
    return found


def what_bash_replies(place):
    lines = "".join(line + "\n" for line, _ in REPLIES)
    how = {"cwd": place.work, "env": place.environment("bash"), "capture_output": True, "text": True, "timeout": 2 * SECONDS}
    run = subprocess.run(["bash", "--norc", "--noprofile", "-c", REPLY], input=lines, **how)
    replies = [[text for text in line.split("\t") if text] for line in run.stdout.splitlines()]
    wrong = [f"{line}: {is_}, and not {want}" for (line, want), is_ in zip(REPLIES, replies) if is_ != want]
    return wrong + ["a line has no reply"] * (len(replies) != len(REPLIES)) + [f"reported: {run.stderr}"] * bool(run.stderr)


def words_of(shell, line, place):
    """The words after the first one of a line, as a shell reads them."""
    command = "printf '%s\\n' " + line.partition(" ")[2]
    run = subprocess.run([shell, "-c", command], env=place.environment(shell), capture_output=True, text=True, timeout=SECONDS)
    return run.stdout.splitlines()


def typed_in(shell):
    def wrong(place):
        if not is_there(shell):
            return []
        terminal = Terminal(shell, place)
        faults = [] if terminal.ready else ["it is not ready"]
        for typed, closing, words in LINES if terminal.ready else []:
            line = terminal.completed(typed)
            if line is None:
                faults.append(f"{typed}: nothing is written")
                break
            found = words_of(shell, line + closing, place)
            if found != words:
                faults.append(f"{typed}: {line!r}, of which the words are {found}, and not {words}")
        terminal.close()
        return faults

    return wrong


FOUND = {"what bash replies": what_bash_replies} | {f"typed in {shell}": typed_in(shell) for shell in SHELLS}
SCENES = Scenes(__file__, FOUND, place=in_folder(lambda programs, path: Place(*programs, path), tempfile.TemporaryDirectory))

if __name__ == "__main__":
    SCENES.main()
