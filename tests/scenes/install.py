#!/usr/bin/env python3
"""Installs the built programs from a copy of this folder, takes them away, and packs them, and looks at what is left each time.

In the copy bin/ holds the programs, rt is a script that does nothing, and of the crates there are the pages and the file that has the
version, so nothing is proved or built.

    tests/scenes/install.py BUILDOZER BUILDIFIER
"""
import hashlib
import os
import re
import shutil
import subprocess
import tarfile
import tempfile

from lib.folders import in_folder
from lib.pages import CRATE_PAGES, links_of
from lib.scenes import TOP, Scenes, different, named

PROGRAMS = ["buildozer", "buildifier"]
SHARED = ["share/man/man1/{}.1", "share/bash-completion/completions/{}", "share/zsh/site-functions/_{}",
          "share/fish/vendor_completions.d/{}.fish"]  # fmt: skip
TREES = [f"{program}-tree" for program in PROGRAMS]
MODULES = [f"share/kinduzar/kinduzar_tree/{file.name}" for file in (TOP / "contrib/tree/kinduzar_tree").glob("*.py")]
FILES = {f"bin/{program}": 0o755 for program in PROGRAMS + TREES} | {file.format(program): 0o644 for file in SHARED for program in PROGRAMS + TREES}
FILES |= dict.fromkeys([*MODULES, "share/man/man7/kinduzar-coming.7"], 0o644) | {"share/kinduzar/contrib/compat/compat.sh": 0o755}
ODD, EVEN = b'f(name="x")\n', b'f(name = "x")\n'
SECONDS = 600
# how many packages the tree has that is formatted by what an archive has
PACKAGES = 3_000
# the version of glibc with which the programs run, and every later one
LIBRARY = (2, 34)
# the file of the crates that has the version
VERSIONED = "crates/bz_streams/src/lib.rt"
# the files that name it to Bazel, and how
OF_BAZEL, NAMED = ("contrib/bazel/MODULE.bazel.template", "contrib/bazel/README.md"), re.compile(r'name = "kinduzar",\s+version = "([^"]+)"')


class Copy:
    """A copy of the folder, with built programs."""

    def __init__(self, built, path):
        self.built, self.path, self.top, self.root = built, path, path / "top", path / "a root"
        (self.top / "bin").mkdir(parents=True)
        (self.top / VERSIONED).parent.mkdir(parents=True)
        shutil.copy(TOP / VERSIONED, self.top / VERSIONED)
        for file in [*TOP.glob("*.md"), *(TOP / name for name in ("Makefile", "crates.txt", ".pre-commit-hooks.yaml"))]:
            shutil.copy(file, self.top)
        for folder in ("tools", "docs", "contrib"):
            shutil.copytree(TOP / folder, self.top / folder, ignore=shutil.ignore_patterns("__pycache__"))
        for page in CRATE_PAGES:
            (self.top / page.relative_to(TOP)).parent.mkdir(parents=True, exist_ok=True)
            shutil.copy(page, self.top / page.relative_to(TOP))
        for program, file in zip(PROGRAMS, built):
            shutil.copyfile(file, self.top / "bin" / program)
            (self.top / "bin" / program).chmod(0o700)
        rt = self.path / "rt"
        rt.write_text("#!/bin/sh\n")
        rt.chmod(0o755)

    def run(self, *words, umask=0o022):
        """The status and both outputs, as one, of a command in the copy."""
        environment = {name: value for name, value in os.environ.items() if not name.startswith(("MAKE", "MFLAGS", "GIT_"))}
        own = {"PATH": f"{self.path}{os.pathsep}{environment['PATH']}", "GIT_CONFIG_GLOBAL": os.devnull, "GIT_CONFIG_NOSYSTEM": "1"}
        own["GIT_COMMITTER_DATE"] = "@0 +0000"
        how = {"stdout": subprocess.PIPE, "stderr": subprocess.STDOUT, "text": True, "timeout": SECONDS, "umask": umask}
        run = subprocess.run(words, cwd=self.top, env={**environment, **own}, **how)
        return run.returncode, run.stdout

    def make(self, *words, umask=0o022):
        return self.run("make", "--no-print-directory", f"DESTDIR={self.root}", *words, umask=umask)

    def installed(self, prefix="usr/local"):
        """The permission bits of each file below a folder of the root."""
        folder = self.root / prefix
        return {str(file.relative_to(folder)): file.stat().st_mode & 0o7777 for file in folder.rglob("*") if not file.is_dir()}

    def pages(self):
        """What is packed beside the programs and their files: each file, with the permission bits that it gets."""
        folders = [*(self.top / "docs").rglob("*"), *(self.top / "contrib").rglob("*"), *(self.top / "crates").glob("*/README.md")]
        pages = [*self.top.glob("*.md"), self.top / ".pre-commit-hooks.yaml", *folders]
        return {str(file.relative_to(self.top)): 0o755 if os.access(file, os.X_OK) else 0o644 for file in pages if file.is_file()}

    def version(self):
        return self.run("tools/version.py")[1].split()[0]

    def git(self, *words):
        return self.run("git", "-c", "user.name=a", "-c", "user.email=a", "-c", "init.defaultBranch=main", *words)


# ---- scenes


def installed(copy):
    """All files, for all to read, whatever rights new files have else; a second time makes no difference."""
    wrong = []
    for _ in range(2):
        wrong += different("install", copy.make("install", umask=0o077), (0, ""))
        wrong += different("files", copy.installed(), FILES)
    wrong += [f"{file} is another one" for file in FILES if (copy.root / "usr/local" / file).read_bytes() != (copy.top / file).read_bytes()]
    folders = [folder for folder in (copy.root / "usr").rglob("*") if folder.is_dir()]
    return wrong + [f"{folder} is closed" for folder in folders if folder.stat().st_mode & 0o777 != 0o755]


def installed_elsewhere(copy):
    """Below another folder, which is given to make or to its environment."""
    wrong = different("install", copy.make("install", "PREFIX=/opt/a folder"), (0, ""))
    wrong += different("files", copy.installed(""), {f"opt/a folder/{file}": mode for file, mode in FILES.items()})
    variables = [f"DESTDIR={copy.root}", "PREFIX=/other"]
    wrong += different("install", copy.run("env", *variables, "make", "--no-print-directory", "install"), (0, ""))
    return wrong + different("files", copy.installed("other"), FILES)


def taken_away(copy):
    """Just what was installed, also where the copy has no pages any more, and a second time nothing."""
    copy.make("install")
    other = copy.root / "usr/local/share/man/man1/other.1"
    other.write_text("other")
    shutil.rmtree(copy.top / "share")
    wrong = [fault for _ in range(2) for fault in different("uninstall", copy.make("uninstall"), (0, ""))]
    wrong += ["share/kinduzar is left"] * (copy.root / "usr/local/share/kinduzar").exists()
    return wrong + different("files", list(copy.installed()), ["share/man/man1/other.1"])


def not_built(copy):
    """Nothing is installed where one of the programs was not built."""
    (copy.top / "bin/buildifier").unlink()
    status, told = copy.make("install")
    wrong = different("printed", told.splitlines()[0], "bin/buildifier was not found: run make first.")
    return wrong + ["it ends well"] * (status == 0) + different("files", copy.installed(), {})


def typed_in(copy, archive):
    """What README.md's three lines for an archive print, with a home in which nothing is, where the archive and a tree of odd texts are."""
    home, here = copy.root / "home", copy.path / "here"
    home.mkdir(parents=True)
    here.mkdir()
    tree = here / "path/to/repository"
    for number in range(PACKAGES):
        package = tree / f"p{number % 50}/q{number}"
        package.mkdir(parents=True)
        (package / "BUILD").write_bytes(ODD)
    shutil.copy(archive, here)
    lines = re.search(r"(?m)^ {4}tar .*\n(?: {4}.*\n)+", (copy.top / "README.md").read_text())[0].replace("VERSION", copy.version())
    environment = {"HOME": str(home), "PATH": "/usr/local/bin:/usr/bin:/bin"}
    run = subprocess.run(["sh", "-ec", lines], cwd=here, env=environment, capture_output=True, text=True, timeout=SECONDS)
    texts = {file.read_bytes() for file in tree.rglob("BUILD")}
    return run.returncode, run.stdout, run.stderr, texts


def packed(copy):
    """The archive has the same files, the pages and contrib/, every link of a page leads to one of these, its sum is written beside it, and
    what README.md's lines make of it formats a tree; a second one is the same. In place of the larger program is a short text."""
    (copy.top / "bin/buildozer").write_text("#!/bin/sh\n")
    status, told = copy.make("dist")
    archive = copy.top / told.strip()
    content = archive.read_bytes()
    front = archive.name.removesuffix(".tar.gz")
    wrong = different("status", status, 0) + different("name", front, f"kinduzar-{copy.version()}-{os.uname().machine}-linux")
    sums = (archive.parent / f"{front}.sha256").read_text()
    wrong += different("sum", sums, f"{hashlib.sha256(content).hexdigest()}  {archive.name}\n")
    with tarfile.open(archive) as packed:
        rows = {row.name: (row.mode, row.uid, row.gid) for row in packed}
    wanted = {f"{front}/{file}": (mode, 0, 0) for file, mode in {**FILES, **copy.pages()}.items()}
    wrong += different("files", rows, wanted)
    linked = [links_of(copy.top / file) for file in copy.pages() if file.endswith(".md")]
    lost = {os.path.relpath(to, copy.top.resolve()) for to in set().union(*linked)} - {*copy.pages(), *FILES}
    wrong += [f"a page links to {file}, which is not packed" for file in sorted(lost)]
    wrong += different("typed in", typed_in(copy, archive), (0, "", f"{PACKAGES:,} files reformatted\n", {EVEN}))
    wrong += different("unpacked files", copy.installed("home/.local"), FILES)
    shutil.rmtree(copy.top / "share")
    archive.unlink()
    copy.make("dist")
    return wrong + ["a second archive is another one"] * (archive.read_bytes() != content)


def the_same_from_anywhere(copy):
    """Of one commit comes one archive, whatever the folder, the rights that new files have, and the times of the files."""
    if not shutil.which("git"):
        SCENES.say("not packed in two folders: there is no git")
        return []
    sums, wrong = [], []
    for here, umask, seconds in ((copy, 0o022, 0), (Copy(copy.built, copy.path / "another folder"), 0o077, 10**8)):
        for file in (here.top / "docs").rglob("*.md"):
            os.utime(file, (seconds, seconds))
        for words in (["init", "-q"], ["add", "README.md", "docs", "crates"], ["commit", "-qm", "one", "--date=@0 +0000"]):
            wrong += different(words[0], here.git(*words), (0, ""))
        wrong += different("dist", here.make("dist", umask=umask)[0], 0)
        sums.append([file.read_text() for file in (here.top / "dist").glob("*.sha256")])
    return wrong + different("sums", sums[1], sums[0]) + ["no sum"] * (len(sums[0]) != 1)


def called_by_a_version(copy):
    """By the version that the programs print, and the module of Bazel has; in git by the commit too where it has no tag of that name, and by
    what was changed since."""
    number, wrong = copy.version(), []
    for file in OF_BAZEL:
        wrong += different(file, NAMED.findall((copy.top / file).read_text()), [number])
    for program in PROGRAMS:
        wrong += different(f"{program} --version", copy.run(f"bin/{program}", "--version")[1], f"{program} {number}\n")
    if not shutil.which("git"):
        SCENES.say("not run with git, which is not there")
        return wrong
    for words in (["init", "-q"], ["add", "README.md"], ["commit", "-qm", "one"]):
        wrong += different(words[0], copy.git(*words), (0, ""))
    word = copy.version()
    wrong += [] if re.fullmatch(re.escape(number) + "-[0-9a-f]{7,40}", word) else [f"no tag: {word}"]
    (copy.top / "README.md").write_text("changed")
    wrong += different("changed", copy.version(), f"{word}-changed")
    copy.git("checkout", "-q", "README.md")
    copy.git("tag", number)
    return wrong + different("tag", copy.version(), number)


def runs_with_libraries_alone(copy):
    """In a root that has the programs, the libraries that they name, and nothing else."""
    root = copy.path / "bare"
    enter = ["unshare", "--map-root-user", "chroot", str(root)]
    if not shutil.which("ldd") or copy.run("unshare", "--map-root-user", "chroot", "/", "true")[0]:
        SCENES.say("not run in a bare root, which may not be entered here")
        return []
    wrong = []
    for program in PROGRAMS:
        for library in re.findall(r"(/\S+) \(", copy.run("ldd", f"bin/{program}")[1]):
            (root / library[1:]).parent.mkdir(parents=True, exist_ok=True)
            shutil.copy(library, root / library[1:])
        shutil.copy(copy.top / "bin" / program, root)
    for words in (["/buildifier"], ["/buildozer", "--", "set name y", "undo", "-:all"]):
        run = subprocess.run([*enter, *words], input=ODD, capture_output=True, timeout=SECONDS)
        found, wanted = (run.returncode, run.stdout), (0, EVEN) if words == ["/buildifier"] else (3, ODD)
        wrong += different(f"{words[0]}: {run.stderr}", found, wanted)
    return wrong


def asks_for_no_later_library(copy):
    """Nothing of the C library is needed that came after the version that README.md names."""
    if not shutil.which("objdump"):
        SCENES.say("not run with objdump, which is not there")
        return []
    wrong = []
    for program in PROGRAMS:
        found = re.findall(r"GLIBC_(\d+)\.(\d+)", copy.run("objdump", "-T", f"bin/{program}")[1])
        latest = max(((int(major), int(minor)) for major, minor in found), default=None)
        wrong += [f"{program}: {latest}"] * (latest is None or latest > LIBRARY)
    return wrong


INSTALLING = named(
    installed, installed_elsewhere, taken_away, not_built, packed, the_same_from_anywhere, called_by_a_version, runs_with_libraries_alone,
    asks_for_no_later_library,
)  # fmt: skip
SCENES = Scenes(__file__, INSTALLING, place=in_folder(Copy, tempfile.TemporaryDirectory))

if __name__ == "__main__":
    SCENES.main()
