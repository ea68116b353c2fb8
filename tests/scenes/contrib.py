#!/usr/bin/env python3
"""Tries what contrib/ has for git, pre-commit, CI and editors, with the built programs, and looks whether the pictures are up to date.

The hooks and the script of CI run in real repositories in a folder of their own; Vim, Emacs and Kakoune run without a screen. Each
is reported as not run where the tool isn't there, and is then not counted as failed.

    tests/scenes/contrib.py BUILDOZER BUILDIFIER
"""
import json
import re
import shutil
import subprocess

from lib.pages import on_path
from lib.runs import environment_with
from lib.scenes import TOP, Scenes, Wrong

CONTRIB = TOP / "contrib"
ODD = 'f( name="\u00e9" )\n'
EVEN = 'f(name = "\u00e9")\n'
REFUSED = "f(\n"
ODD_BZL = "def f(x):\n  return x\n"
EVEN_BZL = "def f(x):\n    return x\n"
# names that are read as BUILD files everywhere
OF_BUILD = ["BUILD", "BUILD.bazel", "WORKSPACE", "WORKSPACE.bazel", "MODULE.bazel", "d/zlib.BUILD"]
# names that only the commands for whole trees, and what calls them, take
OF_TREES = ["WORKSPACE.bzlmod", "REPO.bazel", "a.MODULE.bazel", "d/zlib.BUILD.bazel"]
HOOKS = ["buildifier", "buildifier-check", "buildifier-bzl", "buildifier-bzl-check", "buildifier-tree"]
# calls with the options of bazelbuild's programs: the words, standard input, and the status with what is written
COMPAT = [
    (["buildifier", "-mode=check", "-path=a/r.bzl"], ODD_BZL, (4, "<stdin> # reformat\n")),
    (["buildifier", "-mode", "fix", "-type", "auto", "-path", "a/BUILD"], ODD, (0, EVEN)),
    (["buildifier", "--type=bzl", "-lint=off"], ODD_BZL, (0, EVEN_BZL)),
    (["buildifier", "-type=workspace", "--", "sub/app/BUILD"], "", (0, "")),
    (["buildifier", "-type=default"], ODD_BZL, (0, EVEN_BZL)),
    (["buildifier", "-r", "-mode=check", "sub"], "", (0, "1 file already formatted\n")),
    (["buildifier", "-d", "-type=build", "my lines"], "", (1, "my lines:1:5: Unexpected\n    set size small|//app:all\n        ^ the word 'size'\n1 file refused\n")),
    (["buildifier", "-d"], ODD, (2, "compat.sh: buildifier has no -d of standard input here\n")),
    (["buildifier", "-lint=fix", "."], "", (2, "compat.sh: buildifier has no -lint=fix here\n")),
    (["buildifier", "-mode"], "", (2, "compat.sh: buildifier: -mode has no value\n")),
    (["buildozer", "-root_dir", "sub", "-stdout", "-f", "my lines"], "", (0, 'f(\n    name = "\u00e9",\n    size = "small",\n)\n')),
    (["buildozer", "-k", "-numio=200", "-P", "8", "print name", "-:all"], ODD, (3, "\u00e9\n")),
    (["buildozer", "-root_dir", "sub", "-types=f,g", "print kind", "//app:all"], "", (3, "f\n")),
    (["buildozer", "print kind", "//sub/...:all"], "", (3, "f\n")),
    (["buildozer", "-root_dir", "sub", "print label", "//app:all"], "", (3, "//app:\u00e9\n")),
    (["buildozer", "-output_json", "print name", "-:all"], ODD, (1, "compat.sh: buildozer has no -output_json here\n")),
    (["buildozer", "-eol-comments", "print name", "-:all"], ODD, (1, "compat.sh: buildozer has no -eol-comments here\n")),
]
# who commits, and where pre-commit keeps what it knows of hooks
IDENTITY = {f"GIT_{who}_{what}": text for who in ("AUTHOR", "COMMITTER") for what, text in (("NAME", "a"), ("EMAIL", "a@b"))}


class Repository(Wrong):
    """A folder with a repository of git, with both programs on the PATH."""

    def __init__(self, place, path):
        super().__init__()
        self.path = path
        self.environment = {**environment_with(place.path), **IDENTITY, "PRE_COMMIT_HOME": str(place.path / "kept")}
        self.run("git", "init", "--quiet")

    def run(self, *words):
        """The status and both outputs, as one, of a command."""
        how = {"stdin": subprocess.DEVNULL, "stdout": subprocess.PIPE, "stderr": subprocess.STDOUT, "timeout": 60}
        run = subprocess.run(list(map(str, words)), cwd=self.path, env=self.environment, **how)
        return run.returncode, run.stdout.decode(errors="replace")

    def put(self, name, text):
        file = self.path / name
        file.parent.mkdir(parents=True, exist_ok=True)
        file.write_text(text, encoding="utf-8")

    def add(self, name, text):
        self.put(name, text)
        self.run("git", "add", name)

    def commits(self, what, status, *lines):
        """A commit ends so, and these lines are among those that it leaves."""
        ended, left = self.run("git", "commit", "--quiet", "--message=m")
        self.expect(what, ended, status)
        self.wrong += [f"{what}: {left!r} lacks {line!r}" for line in lines if line not in left.splitlines()]


# ---- scenes; each gives what is wrong


def git_hook(place):
    """The hook looks at what is to be committed, whatever is in the folder, and changes nothing."""
    here = Repository(place, place.folder)
    shutil.copy(CONTRIB / "git" / "pre-commit", here.path / ".git" / "hooks")
    here.add("other", ODD)
    here.commits("a commit without BUILD files", 0)
    here.add("r.bzl", ODD_BZL)
    here.environment["BUILDIFIER_BZL"] = "yes"
    here.commits("an odd .bzl file, where they count", 1, "r.bzl # reformat")
    del here.environment["BUILDIFIER_BZL"]
    here.commits("an odd .bzl file", 0)
    for name in OF_BUILD + OF_TREES:
        here.add(name, ODD)
        here.commits(name, 1, f"{name} # reformat")
        here.add(name, EVEN)
    here.add("a b/BUILD", ODD)
    here.put("a b/BUILD", EVEN)
    here.commits("an odd file, mended in the folder alone", 1, "a b/BUILD # reformat")
    here.add("a b/BUILD", EVEN)
    here.put("a b/BUILD", ODD)
    here.commits("a formatted file, odd in the folder alone", 0)
    here.expect("the file", (here.path / "a b/BUILD").read_text(encoding="utf-8"), ODD)
    here.add("c/BUILD.bazel", REFUSED)
    here.commits("a text that is refused", 1, "c/BUILD.bazel:2:1: Unexpected")
    return here.wrong


def pre_commit(place):
    """pre-commit finds the hooks and formats; a second commit passes."""
    hooks = place.folder / "hooks"
    hooks.mkdir()
    kept = Repository(place, hooks)
    kept.add(".pre-commit-hooks.yaml", (TOP / ".pre-commit-hooks.yaml").read_text())
    kept.commits("the hooks", 0)
    commit = kept.run("git", "rev-parse", "HEAD")[1].strip()
    here = Repository(place, place.folder)
    settings = f"repos:\n- repo: {hooks}\n  rev: {commit}\n  hooks:\n" + "".join(f"  - id: {name}\n" for name in HOOKS)
    here.add(".pre-commit-config.yaml", settings)
    here.run("pre-commit", "install")
    here.add("a/BUILD", ODD)
    here.add("a/r.bzl", ODD_BZL)
    here.add("BUILDER", ODD)
    here.commits("an odd file", 1, "- files were modified by this hook")
    here.expect("the file", (here.path / "a/BUILD").read_text(encoding="utf-8"), EVEN)
    here.expect("the .bzl file", (here.path / "a/r.bzl").read_text(encoding="utf-8"), EVEN_BZL)
    here.run("git", "add", "a/BUILD", "a/r.bzl")
    here.commits("the formatted files", 0)
    return here.wrong


def ci_script(place):
    """The status is buildifier's, whatever xargs makes of it, and no file is changed."""
    here = Repository(place, place.folder)
    script = CONTRIB / "ci" / "check-build-files.sh"
    here.expect("no files", here.run(script), (0, ""))
    for name in OF_BUILD + OF_TREES:
        here.add(name, ODD)
        here.expect(name, here.run(script), (4, f"{name} # reformat\n"))
        here.expect("all but it", here.run(script, "--", f":!{name}"), (0, ""))
        here.run("git", "rm", "-fq", name)
    here.add("a/BUILD", EVEN)
    here.put("not added/BUILD", ODD)
    here.expect("a formatted file", here.run(script), (0, ""))
    here.commits("a commit", 0)
    here.add("b c/BUILD.bazel", ODD)
    here.add("b c/r.bzl", ODD_BZL)
    here.expect("an odd file", here.run(script), (4, "b c/BUILD.bazel # reformat\n"))
    here.environment["BUILDIFIER_BZL"] = "yes"
    here.expect("a .bzl file", here.run(script), (4, "b c/BUILD.bazel # reformat\nb c/r.bzl # reformat\n"))
    del here.environment["BUILDIFIER_BZL"]
    here.expect("the file", (here.path / "b c/BUILD.bazel").read_text(encoding="utf-8"), ODD)
    here.add("c/BUILD", REFUSED)
    here.expect("a text that is refused", here.run(script)[0], 1)
    here.add("a/BUILD", EVEN + "\n# d\n")
    here.expect("what differs", here.run(script, "HEAD")[0], 1)
    (here.path / "a/BUILD").unlink()
    here.expect("a file that is not there", here.run(script)[0], 3)
    here.expect("what differs and is there", here.run(script, "HEAD")[0], 1)
    here.expect("no such commit", here.run(script, "none")[0], 2)
    return here.wrong


def ci_script_of_a_branch(place):
    """By three dots what others changed since the branch began is left out."""
    here = Repository(place, place.folder)
    script = CONTRIB / "ci" / "check-build-files.sh"
    here.add("a/BUILD", EVEN)
    here.add("b/BUILD", EVEN)
    here.commits("a commit", 0)
    for words in (["branch", "other"], ["checkout", "-q", "-b", "mine"]):
        here.run("git", *words)
    here.add("b/BUILD", ODD)
    here.commits("a commit of the branch", 0)
    here.run("git", "checkout", "-q", "other")
    here.add("a/BUILD", EVEN + "\n# d\n")
    here.commits("a commit of others", 0)
    here.run("git", "checkout", "-q", "mine")
    here.put("a/BUILD", ODD)
    here.run("git", "add", "a/BUILD")
    here.expect("by three dots", here.run(script, "other...HEAD"), (4, "b/BUILD # reformat\n"))
    here.expect("by the commit", here.run(script, "other"), (4, "a/BUILD # reformat\nb/BUILD # reformat\n"))
    return here.wrong


def compat(place):
    """By one dash or two; what cannot be done is named, and nothing is run."""
    script, left = CONTRIB / "compat" / "compat.sh", []
    (place.folder / "sub" / "app").mkdir(parents=True)
    build = place.folder / "sub" / "app" / "BUILD"
    build.write_text(EVEN, encoding="utf-8")
    (place.folder / "my lines").write_text("set size small|//app:all\n")
    for words, text, wanted in COMPAT:
        found = place.run([str(script), *words], text.encode())
        left += [f"{words}: {found}, and not {wanted}"] * (found != wanted)
    left += [f"the file: {build.read_text()!r}"] * (build.read_text(encoding="utf-8") != EVEN)
    return left


def on_save(chosen, *commands):
    """A scene in which an editor writes files that it formats, one that is refused, and a .bzl file, which is formatted by choice; of
    these words the second one chooses so."""
    rows = [(name, ODD, EVEN, 0) for name in OF_BUILD] + [("BUILD", REFUSED, REFUSED, 0), ("other", ODD, ODD, 1)]
    rows += [("r.bzl", ODD_BZL, ODD_BZL, 0), ("r.bzl", ODD_BZL, EVEN_BZL, 1)]

    def wrong(place):
        faults = []
        for name, text, wanted, at in rows:
            file = place.folder / name
            file.parent.mkdir(exist_ok=True)
            file.write_text(text, encoding="utf-8")
            places = {"CONTRIB": str(CONTRIB), "FILE": name, "CHOSEN": chosen[at]}
            words = [re.sub("|".join(places), lambda found: places[found[0]], word) for word in commands]
            try:
                place.run(words)
            except subprocess.TimeoutExpired:
                faults.append(f"{name}: the editor does not end")
            left = file.read_text(encoding="utf-8")
            if left != wanted:
                faults.append(f"{name}: {left!r}, and not {wanted!r}")
        return faults

    return wrong


# a stub of VS Code: it keeps what formats and what is reported, and hands a text to it
VSCODE = """
const module_ = require("module"), load = module_._load, told = [];
const providers = {};
const vscode = {
  Range: class {},
  TextEdit: { replace: (range, text) => text },
  window: { showWarningMessage: (line) => told.push(line) },
  languages: { registerDocumentFormattingEditProvider: (language, given) => { providers[language] = given; } },
};
module_._load = (name, ...rest) => (name === "vscode" ? vscode : load(name, ...rest));
require(process.argv[1]).activate({ subscriptions: [] });
const document_ = { getText: () => process.argv[2], positionAt: (at) => at };
providers[process.argv[3]].provideDocumentFormattingEdits(document_).then((edits) => console.log(JSON.stringify([edits, told])));
"""


def extension(place):
    """The extension for VS Code is described in JSON, and gives the formatted text, or says why not."""
    described = json.loads((CONTRIB / "vscode" / "package.json").read_text())
    main = str(CONTRIB / "vscode" / described["main"])
    faults = []
    refused = [[], ["buildifier: <stdin>:2:1: Unexpected"]]
    for text, language, wanted in ((ODD, "bazel-build", [[EVEN], []]), (REFUSED, "bazel-build", refused), (ODD_BZL, "bazel-bzl", [[EVEN_BZL], []])):
        left = place.run(["node", "-e", VSCODE, main, text, language])[1]
        if left != json.dumps(wanted, separators=(",", ":"), ensure_ascii=False) + "\n":
            faults.append(f"{text!r}: {left!r}, and not {wanted}")
    return faults


def pictures(place):
    status, left = place.run([str(TOP / "tools" / "pictures.py"), "--check"])
    return [left] if status else []


VIM_SETTINGS = ("-u", "NONE", "-i", "NONE", "-es", "--cmd", "let g:buildifier_bzl = CHOSEN", "-S", "CONTRIB/vim/buildifier.vim")
VIM = (("0", "1"), "vim", "-N", *VIM_SETTINGS, "-c", "edit FILE", "-c", "write", "-c", "qa!")
NEOVIM = (("0", "1"), "nvim", "--headless", *VIM_SETTINGS, "-c", "edit FILE", "-c", "write", "-c", "qa!")
EMACS_SAVE = '(progn (setq buildifier-bzl CHOSEN) (find-file "FILE") (set-buffer-modified-p t) (save-buffer))'
EMACS = (("nil", "t"), "emacs", "-Q", "--batch", "-l", "CONTRIB/emacs/buildifier.el", "--eval", EMACS_SAVE)
# after a fault Kakoune would wait for more to do
KAKOUNE_SAVE = """try %{ source "%val{runtime}/rc/tools/format.kak"; source "CONTRIB/kakoune/buildifier.kak"
set-option global buildifier_bzl CHOSEN; edit FILE; write }; kill!"""
KAKOUNE = (("false", "true"), "kak", "-n", "-ui", "dummy", "-e", KAKOUNE_SAVE)
# what Vim shows of a write, and its list of places, as lines of the file `shown`
VIM_PLACES = r"""map(getqflist(), 'bufname(v:val.bufnr) . ":" . v:val.lnum . ":" . v:val.col . ":" . v:val.text')"""
VIM_SHOWS = rf"call writefile(split(execute('messages'), '\n')[-2:], 'shown') | call writefile({VIM_PLACES}, 'shown', 'a')"


def vim_shows_a_refusal(place):
    """After the line of the write comes what was refused, which is a place of the quickfix list too, by the byte; once the text is
    accepted the list is empty."""
    faults, file, shown = [], place.folder / "BUILD", place.folder / "shown"
    script = str(CONTRIB / "vim" / "buildifier.vim")
    words = ["vim", "-N", "-u", "NONE", "-i", "NONE", "-es", "-S", script, "-c", "edit BUILD", "-c", "write"]
    refused = '"BUILD" 1L, 9B written', "buildifier: <stdin>:1:7: BadCharacter", "BUILD:1:8:BadCharacter"
    for more, wanted in (([], list(refused)), (["-c", 'call setline(1, "f()")', "-c", "write"], ['"BUILD" 1L, 4B written'])):
        file.write_text('f("\u00e9" $', encoding="utf-8")
        place.run([*words, *more, "-c", VIM_SHOWS, "-c", "qa!"])
        left = shown.read_text(encoding="utf-8").splitlines()
        faults += [f"{left}, and not {wanted}"] * (left[-len(wanted) :] != wanted)
    return faults


# each with the tool that it needs
NEEDS = {
    "git hook": ("git", git_hook),
    "pre-commit": ("pre-commit", pre_commit),
    "script of CI": ("git", ci_script),
    "script of CI over a branch": ("git", ci_script_of_a_branch),
    "options of bazelbuild's programs": ("sh", compat),
    "Vim": ("vim", on_save(*VIM)),
    "Vim shows a refusal": ("vim", vim_shows_a_refusal),
    "Neovim": ("nvim", on_save(*NEOVIM)),
    "Emacs": ("emacs", on_save(*EMACS)),
    "Kakoune": ("kak", on_save(*KAKOUNE)),
    "extension for VS Code": ("node", extension),
    "pictures": ("sh", pictures),
}


def where_there(name, tool, scene):
    """The scene, or where the tool isn't there one that says so and finds nothing wrong."""

    def wrong(place):
        if shutil.which(tool):
            return scene(place)
        SCENES.say(f"{name} was not run: there is no {tool}")
        return []

    return wrong


SCENES = Scenes(__file__, {name: where_there(name, tool, scene) for name, (tool, scene) in NEEDS.items()}, place=on_path)

if __name__ == "__main__":
    SCENES.main()
