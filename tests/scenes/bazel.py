#!/usr/bin/env python3
"""Runs both built programs beside Bazel, in a small workspace of its own, and looks at what Bazel makes of what they leave.

What is proved speaks of texts. Here it is seen that the rules of contrib/bazel check, format and edit a workspace, and that what Bazel
reads stays. Each folder of tests/bazel has a made package of native rules: its BUILD file in odd layout (text), its other files, and
lines for buildozer (commands). `bazel query` must give the same answer before and after the text is formatted, with the lists that
formatting sorts taken as sets, and without places; and after the commands, run on the odd text, just their change (expected.json).

    tests/scenes/bazel.py BUILDOZER BUILDIFIER

Where there is no bazel the script says so, and nothing is tried; nor with one from 7 on, which needs a network for such a workspace.
"""
import ast
import contextlib
import json
import os
import pathlib
import re
import shutil
import signal
import subprocess
import tempfile
from xml.etree import ElementTree

from lib.scenes import TOP, Scenes

MADE = sorted(folder for folder in (TOP / "tests/bazel").iterdir() if folder.is_dir())
# What is in a folder of tests/bazel beside the files of the package.
OURS = shutil.ignore_patterns("text", "commands", "expected.json")
# The first version of Bazel that reads such a workspace only with a network.
WITHOUT_WORKSPACE = 7
# How long a call of Bazel may take, in seconds, and its server stay where it was not ended.
LIMIT = 300

# How the server's Java is started: it is short-lived and small.
JAVA = [f"--host_jvm_args={word}" for word in ("-Xmx512m", "-XX:TieredStopAtLevel=1")]

# The attributes whose lists formatting sorts, in every kind of rule but for srcs in genrule.
SORTED = frozenset("compatible_with data deps exports hdrs implementation_deps runtime_deps srcs tags textual_hdrs visibility".split())

# What follows from the other attributes of a rule.
DERIVED = ("rule-input", "rule-output", "made by")

# What begins a rule in an answer as BUILD text: the folder of its file is before the place.
PLACE = re.compile(r"^# (/.*)/BUILD:\d+:\d+\n", re.MULTILINE)
# How a test ended, and the line on a file that is not formatted.
RESULT = re.compile(r"^(//\S+) +((?:\(cached\) )?PASSED|FAILED)", re.MULTILINE)
REFORMAT = re.compile(r"^\S+ # reformat$", re.MULTILINE)

WORKSPACE = """workspace(name = "scenes")

local_repository(
    name = "kinduzar",
    path = {rules},
)

load("@kinduzar//:programs.bzl", "kinduzar_programs")

kinduzar_programs(
    name = "kinduzar_programs",
    buildifier = {buildifier},
    buildozer = {buildozer},
)
"""
# A repository that Bazel fetches for each test, also where nothing requests coverage.
COVERAGE = 'filegroup(name = "coverage_report_generator", visibility = ["//visibility:public"])\n'

LISTED = """load("@kinduzar//:defs.bzl", "buildifier_test")

buildifier_test(
    name = "test",
    size = "small",
    srcs = [
        "BUILD",
        "//checked/even:BUILD",
        "//checked/odd:BUILD",
    ],
)
"""
EVEN = """load("@kinduzar//:defs.bzl", "buildifier_package_test")

exports_files(["BUILD"])

buildifier_package_test(name = "test")

filegroup(name = "x")
"""
ODD = EVEN.replace("\n\n", "\n").replace(" = ", "=")
CHECKED = {"BUILD": LISTED, "even/BUILD": EVEN, "odd/BUILD": ODD}


class Workspace:
    """A folder in which both programs and Bazel run, with one server."""

    def __init__(self, buildozer, buildifier, folder):
        self.buildozer, self.buildifier, self.refused = buildozer, buildifier, []
        self.path = pathlib.Path(folder, "workspace")
        coverage = pathlib.Path(folder, "coverage")
        self.start = ["bazel", "--nohome_rc", "--noworkspace_rc", *JAVA]
        self.start += [f"--max_idle_secs={LIMIT}", f"--output_user_root={folder}/root", f"--output_base={folder}/base"]
        self.tested = ["--jobs=1", "--nosandbox_debug", "--test_output=errors", f"--override_repository=remote_coverage_tools={coverage}"]
        paths = {"rules": TOP / "contrib/bazel", "buildifier": buildifier, "buildozer": buildozer}
        self.file("WORKSPACE", WORKSPACE.format(**{name: json.dumps(str(path)) for name, path in paths.items()}))
        self.file(coverage / "WORKSPACE", "")
        self.file(coverage / "BUILD", COVERAGE)
        for name, text in CHECKED.items():
            self.file(f"checked/{name}", text)

    def file(self, name, text):
        file = self.path / name
        file.parent.mkdir(parents=True, exist_ok=True)
        file.write_bytes(text.encode())

    def bazel(self, command, *words, folder="."):
        """The status, standard output and standard error of a call."""
        words = [*self.start, command, "--color=no", "--curses=no", *words]
        run = subprocess.run(words, cwd=self.path / folder, stdin=subprocess.DEVNULL, capture_output=True, timeout=LIMIT)
        return run.returncode, run.stdout.decode(), run.stderr.decode(errors="replace")

    def end(self):
        """Ends the server, by its number where it doesn't answer, and lets each folder be removed."""
        folder = self.path.parent
        try:
            self.bazel("shutdown")
        except subprocess.TimeoutExpired:
            os.kill(int((folder / "base/server/server.pid.txt").read_text()), signal.SIGKILL)
        subprocess.run(["chmod", "-R", "u+w", folder])

    def answer(self, output):
        """What a query answers; it passes over a package that Bazel refuses."""
        _, out, err = self.bazel("query", "--keep_going", f"--output={output}", "//read/...:*")
        self.refused += [line for line in err.splitlines() if line.startswith("ERROR:")]
        return out

    def read(self):
        """What Bazel reads in the made packages, for each target."""
        targets = targets_of(self.answer("xml"))
        for label, chosen in chosen_of(self.answer("build"), self.path).items():
            targets.setdefault(label, {"kind": None}).update(chosen)
        return targets

    def put(self):
        """Puts the made packages there as they are."""
        for made in MADE:
            package = self.path / "read" / made.name
            shutil.copytree(made, package, ignore=OURS, dirs_exist_ok=True)
            shutil.copyfile(made / "text", package / "BUILD")

    def read_all(self):
        """Keeps what Bazel reads before and after formatting, and after the commands, with what the programs reported of it."""
        self.put()
        self.before = self.read()
        files = [self.path / "read" / made.name / "BUILD" for made in MADE]
        self.told = {"": subprocess.run([self.buildifier, *files], capture_output=True, text=True).stderr}
        self.formatted = self.read()
        self.put()
        for made in MADE:
            words = [self.buildozer, "--quiet", "-f", made / "commands"]
            self.told[made.name] = subprocess.run(words, cwd=self.path, capture_output=True, text=True).stderr
        self.edited = self.read()


# ---- what Bazel reads


def held(element):
    """What an element of an answer holds: a text, or the list of what its parts hold."""
    return element.get("value", tuple(held(part) for part in element))


def attributes_of(target):
    """The kind of a target and its attributes, but for places; names that are there without a value are kept as sets."""
    found = {"kind": target.get("class", target.tag), "made by": target.get("generating-rule")}
    for part in target:
        name = part.get("name")
        if len(part) or "value" in part.attrib or part.tag in ("list", "dict"):
            found[name] = held(part)
        else:
            found[part.tag] = found.get(part.tag, frozenset()) | {name}
    found.pop("generator_location", None)
    return found


def targets_of(answer):
    """Each target of an answer in XML by its label. The first line says XML 1.1, which Python doesn't read."""
    root = ElementTree.fromstring(answer.partition("\n")[2] or "<query/>")
    return {target.get("name"): attributes_of(target) for target in root}


def settled(node, is_set):
    """The text of an expression, with its lists sorted and repeats dropped where they are sets."""
    for part in ast.walk(node):
        if is_set and isinstance(part, ast.List):
            part.elts = sorted({ast.dump(item): item for item in part.elts}.values(), key=ast.dump)
    return ast.unparse(node)


def chosen_of(answer, path):
    """The attributes of each rule that are chosen by select, as an answer in BUILD text has them; in XML they are mixed up."""
    found = {}
    pieces = PLACE.split(answer)
    for folder, text in zip(pieces[1::2], pieces[2::2]):
        call = ast.parse(text).body[0].value
        values = {word.arg: word.value for word in call.keywords}
        label = f"//{pathlib.Path(folder).relative_to(path)}:{values['name'].value}"
        is_set = {name: name in SORTED and (name, call.func.id) != ("srcs", "genrule") for name in values}
        found[label] = {name: settled(value, is_set[name]) for name, value in values.items() if "select(" in ast.unparse(value)}
    return found


def of_package(targets, made, kept):
    """The attributes of the targets of a package by the target's name and their own; lists that formatting sorts are sets."""
    found = {}
    for label, attributes in targets.items():
        package, _, target = label[len("//read/") :].partition(":")
        for name, value in attributes.items() if package == made.name else []:
            is_set = name in kept or name in SORTED and (name, attributes["kind"]) != ("srcs", "genrule")
            found[f"{target} {name}"] = frozenset(value) if is_set and isinstance(value, tuple) else value
    return found


def expected(made):
    """The attributes of a package whose lists are under `keep sorted`, and what its commands change."""
    file = made / "expected.json"
    return json.loads(file.read_text()) if file.exists() else {}


def changes(made, before, after):
    """What differs between two readings of a package: for each attribute both values, None where there is none."""
    kept = expected(made).get("kept", [])
    old, new = of_package(before, made, kept), of_package(after, made, kept)
    return {name: [plain(old.get(name)), plain(new.get(name))] for name in sorted({*old, *new}) if old.get(name) != new.get(name)}


def plain(value):
    """A value as a file of JSON can have it."""
    if isinstance(value, frozenset):
        return sorted(map(plain, value), key=str)
    return [plain(item) for item in value] if isinstance(value, tuple) else value


def rules_of(targets):
    """The rules alone, with the attributes that their files give; what follows from these is left out."""
    rules = {label: found for label, found in targets.items() if found["kind"] not in ("source-file", "generated-file")}
    return {label: {name: found[name] for name in found if name not in DERIVED} for label, found in rules.items()}


# ---- scenes: each gives what is wrong


def differing(**pairs):
    return [f"{name}: {is_!r}, and not {want!r}" for name, (is_, want) in pairs.items() if is_ != want]


def accepted(w):
    """Bazel takes each made package as it is, formatted and edited."""
    return w.refused + ([] if w.before else ["nothing was read"])


def formatting(made):
    """What Bazel reads stays."""

    def scene(w):
        told = [line for line in w.told[""].splitlines() if f"/{made.name}/BUILD" in line]
        return told + differing(changes=(changes(made, w.before, w.formatted), {}))

    return scene


def editing(made):
    """Just what the commands say changes in what Bazel reads."""

    def scene(w):
        found = changes(made, rules_of(w.before), rules_of(w.edited))
        return w.told[made.name].splitlines() + differing(changes=(found, expected(made).get("changes", {})))

    return scene


def test_results(w):
    """The status of the tests, how each of them ended, and the lines on files that are not formatted."""
    status, out, err = w.bazel("test", *w.tested, "//checked/...")
    return status, dict(RESULT.findall(out + err)), sorted(REFORMAT.findall(out + err))


def tested(w):
    """Tests of formatted files pass, and each other one names the file."""
    results = {"//checked:test": "FAILED", "//checked/even:test": "PASSED", "//checked/odd:test": "FAILED"}
    return differing(tests=(test_results(w), (3, results, ["checked/odd/BUILD # reformat"] * 2)))


def formatted(w):
    """The run target formats the source tree, after which tests pass, and only those are run again whose files changed."""
    status = w.bazel("run", "--jobs=1", "@kinduzar//:buildifier", folder="checked")[0]
    texts = [(w.path / "checked" / name).read_text() for name in CHECKED]
    results = {"//checked:test": "PASSED", "//checked/even:test": "(cached) PASSED", "//checked/odd:test": "PASSED"}
    return differing(status=(status, 0), texts=(texts, [LISTED, EVEN, EVEN]), tests=(test_results(w), (0, results, [])))


def edited(w):
    """The run target edits the package of Bazel's label, wherever it is called, and gives its output and status."""
    call = ["run", "--jobs=1", "@kinduzar//:buildozer", "--", "print name kind", "set tags a\\ b", "//checked/even:x"]
    first, second = w.bazel(*call, folder="checked/odd"), w.bazel(*call)
    text = EVEN.replace('filegroup(name = "x")', 'filegroup(\n    name = "x",\n    tags = ["a b"],\n)')
    left = (w.path / "checked/even/BUILD").read_text()
    return differing(first=(first[:2], (0, "x filegroup\n")), second=(second[:2], (3, "x filegroup\n")), text=(left, text))


def why_not():
    """Why Bazel cannot be run here, or nothing."""
    if not shutil.which("bazel"):
        return "bazel is not there"
    version = subprocess.run(["bazel", "--version"], stdin=subprocess.DEVNULL, capture_output=True, text=True).stdout.strip()
    numbers = re.match(r"bazel (\d+)\.", version)
    return f"{version} needs a network for such a workspace" if numbers and int(numbers[1]) >= WITHOUT_WORKSPACE else ""


NOT_RUN = why_not()

@contextlib.contextmanager
def workspace(buildozer, buildifier):
    """A workspace that was read; none where Bazel cannot be run."""
    if NOT_RUN:
        SCENES.say(f"not run: {NOT_RUN}")
        yield None
        return
    with tempfile.TemporaryDirectory() as folder:
        made = Workspace(buildozer, buildifier, folder)
        try:
            made.read_all()
            yield made
        finally:
            made.end()


# in the order in which they run; none where Bazel cannot be run
FOUND = {"bazel takes all packages": accepted}
FOUND |= {f"formatting {made.name}": formatting(made) for made in MADE}
FOUND |= {f"editing {made.name}": editing(made) for made in MADE}
FOUND |= {f"the rules of contrib/bazel: {scene.__name__}": scene for scene in (tested, formatted, edited)}
SCENES = Scenes(__file__, {} if NOT_RUN else FOUND, workspace)

if __name__ == "__main__":
    SCENES.main()
