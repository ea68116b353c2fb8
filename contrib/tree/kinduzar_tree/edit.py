"""Runs buildozer over packages: a package always in one process, with its commands and targets in their order."""
import os

from .files import digest_of
from .names import BUILD_NAMES, build_file
from .processes import NOT_RUN, batches
from .refusals import by_name, lines_of, without_notes
from .targets import Target, names_of, of_kinds, packages_below, place, settled, written
from .terminal import shown

WELL, FAILED, SAME = 0, 2, 3
UNNAMED = "no target can name this package"


class Plan:
    """What is done in which package, and what cannot be done."""

    def __init__(self, root, refusals):
        self.root, self.refusals = root, refusals
        self.steps, self.links, self.below = {}, set(), {}
        self.missing, self.notes = [], []  # the patterns that mean nothing, and what is noted of others

    def add(self, line, target):
        """A line's commands are for a target too."""
        steps = self.steps.setdefault(target.package, [])
        if not steps or steps[-1][0] is not line:
            steps.append((line, []))
        steps[-1][1].append(target)

    def meant_by(self, pattern):
        """The targets that a pattern means; what cannot be read, a package that no target can name, and a pattern that means none, are refused."""
        if pattern.front not in self.below:
            self.below[pattern.front] = packages_below(self.root, pattern.front)
        packages = self.below[pattern.front]
        self.links |= set(packages.links)
        refused = {name: f"{name}: {why}" for name, why in packages.closed.items()}
        refused.update({name: f"{place(name, build_file(os.path.join(self.root, name)) or 'BUILD')}: {UNNAMED}" for name in packages.unnamed})
        for name in [name for name in refused if name not in self.refusals.lines]:
            self.refusals.add(name, [refused[name]])
        if not packages.named and not refused:
            self.lack(pattern, "there is no package")
        # the root package has no rule that a target without a colon would mean
        return [Target(package, pattern.which) for package in packages.named if package or pattern.which is not None]

    def count(self, pattern, found, meant):
        """Says of a pattern where none or few of the packages that it means have such a rule."""
        if not found:
            self.lack(pattern, "no package has such a rule")
        elif pattern.which is None and found * 10 < meant:
            self.notes.append(f"{pattern}: {found:,} of {meant:,} packages have a rule of their own name; {pattern}:all means all rules")

    def lack(self, pattern, what):
        """A pattern means nothing, which is refused."""
        self.missing.append(pattern)
        self.refusals.add(pattern.package, [f"{pattern}: {what}"])

    def files(self):
        return [name for package in self.steps for name in names_of(self.root, package) if os.path.isfile(os.path.join(self.root, name))]


class Batch:
    """What came of some packages: standard output, what was noted, the files that were written, with the digests after it, also of those that may
    have been, what is shown of them, what was refused by package, the packages that were not tried, and why, if no process could be started, and
    those that lack the rule that is meant."""

    def __init__(self, status, out=b"", untried=(), lack=""):
        self.status, self.out, self.notes, self.fixed, self.after, self.texts, self.refused = status, out, [], [], {}, [], {}
        self.untried, self.lack, self.lacking = list(untried), lack, []


class Editor:
    """buildozer in the root of a workspace."""

    def __init__(self, pool, path, root, flags):
        self.pool, self.path, self.root, self.flags = pool, path, root, flags
        self.only = None  # the one pattern of a run of one command, of which each package says by itself whether it has such a rule

    def call(self, flags, commands, targets):
        return self.pool.call([self.path, *flags, "--", *commands, *map(str, targets)], folder=self.root)

    def kinds_of(self, targets):
        return self.call(["-k"], ["print kind"], targets)

    # ---- which packages have what a pattern means

    def having(self, targets):
        """Those of the targets, one a package, by which some rule is meant, or whose file refuses to say so."""
        lacking = set()
        for _, batch, ended in self.pool.each(self.kinds_of, list(batches(targets, self.pool.processes, lambda target: target.package))):
            err = set(lines_of(ended.err))
            lack = "buildozer: {}: print kind: NoTarget (41)".format
            lacking |= {target.package for target in batch if err & {lack(shown(place(target.package, name))) for name in BUILD_NAMES}}
        return [target for target in targets if target.package not in lacking]

    def of_kinds(self, targets, kinds):
        """The targets that mean, of these targets, the rules of some kinds."""
        known = {number: of_kinds(target, kinds) for number, target in enumerate(targets)}
        unknown = [(number, target) for number, target in enumerate(targets) if known[number] is None]
        for _, (number, target), ended in self.pool.each(lambda one: self.kinds_of([one[1]]), unknown):
            found = set(os.fsdecode(ended.out).split())
            known[number] = [target] if found & set(kinds) or without_notes(ended.err)[1] else []
        return [target for number in range(len(targets)) for target in known[number]]

    def plan(self, lines, kinds, refusals):
        """What the lines mean in which package."""
        plan = Plan(self.root, refusals)
        if [len(line.commands) * len(line.targets) for line in lines] == [1] and not kinds and lines[0].targets[0].names_rules(lines[0]):
            self.only, self.flags = lines[0].targets[0], [*self.flags, "-k"] if "-k" not in self.flags else self.flags
        for line in lines:
            for target in line.targets:
                meant = plan.meant_by(target) if target.is_pattern else [settled(self.root, target)]
                if target.names_rules(line) and meant:
                    meant = self.had(plan, target, meant)
                for one in self.of_kinds(meant, kinds) if kinds else meant:
                    plan.add(line, one)
        return plan

    def had(self, plan, pattern, meant):
        """Of the targets that a pattern means those by which some rule is meant, or all, where that is seen in the run."""
        if pattern is self.only:
            return meant
        found = self.having(meant)
        plan.count(pattern, len(found), len(meant))
        return found

    # ---- one batch

    def batch(self, steps):
        """Edits some packages, each with its steps."""
        ended = self.edited(steps)
        packages = [package for package, _ in steps]
        done = Batch(ended.status, ended.out)
        if ended.status == NOT_RUN:
            return Batch(FAILED, untried=packages, lack=ended.how())
        done.notes, err = without_notes(ended.err)
        for package in packages:
            for name in names_of(self.root, package):
                is_there, err = without_line(err, b"fixed " + os.fsencode(shown(name)))
                done.fixed += [name] * is_there
        self.add_refused(done, packages, err)
        if self.only:
            done.lacking = [package for package, lines in done.refused.items() if lines[0].endswith(": NoTarget (41)")]
            done.refused = {package: lines for package, lines in done.refused.items() if package not in done.lacking}
            done.status = done.status if done.refused or not done.lacking else WELL if done.fixed else SAME
        changed = done.fixed
        if ended.status not in (WELL, FAILED, SAME):
            self.add_odd(done, packages, ended)
            changed = [name for package in packages for name in names_of(self.root, package)]
        done.after = {name: digest_of(os.path.join(self.root, name)) for name in changed}
        return done

    def edited(self, steps):
        """Runs buildozer: with words where all is of a command line, and the system takes so many, else with a file of lines."""
        line = steps[0][1][0][0]
        pairs = [pair for _, pairs in steps for pair in pairs]
        texts = [written(line, targets) for line, targets in pairs]
        if not line.number:
            ended = self.call(self.flags, line.commands, [target for _, targets in pairs for target in targets])
            if ended.status != NOT_RUN or not all(texts):
                return ended
        return self.pool.call([self.path, *self.flags, "-f", "-"], os.fsencode("".join(texts)), self.root)

    def add_refused(self, done, packages, err):
        """Adds what was refused; without -k a refusal ends the run, so what comes after it was not tried."""
        fronts = {front: package for package in packages for front in fronts_of(names_of(self.root, package))}
        for package, lines in by_name(err, fronts).items():
            done.refused.setdefault(packages[0] if package is None else package, []).extend(lines)
        ends = [package for package, lines in done.refused.items() if "--journal" in self.flags or not all(line.endswith(": cannot write") for line in lines)]
        if ends and "-k" not in self.flags:
            at = max(map(packages.index, ends))
            done.untried = packages[at + 1 :]

    def add_odd(self, done, packages, ended):
        """Adds that a process ended in a way of its own, as by a signal; where this run has ended it, its packages are not done."""
        done.status = FAILED
        if self.pool.is_ending:
            done.refused, done.untried = {}, packages
            return
        for package in packages:
            done.refused.setdefault(package, []).append(f"{names_of(self.root, package)[-1]}: buildozer {ended.how()}")


def fronts_of(names):
    """How buildozer's lines on files begin."""
    return [os.fsencode(front) for name in map(shown, names) for front in (f"{name}:", f"{name}.journal:", f"buildozer: {name}:")]


def without_line(text, line):
    """Whether a line is in a text, and the text without it."""
    at = (b"\n" + text).find(b"\n" + line + b"\n")
    return (True, text[:at] + text[at + len(line) + 1 :]) if at >= 0 else (False, text)
