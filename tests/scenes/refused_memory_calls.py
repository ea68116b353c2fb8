#!/usr/bin/env python3
"""Puts each question of the sheet of cases while memory is refused, and looks at the answers.

The program cases links the libraries and calls them itself: for each question a call, and for those about sessions, their weights
and their journals a list of actions. Of each question's cases each one is put by itself, and the k-th request for memory of
that run is refused (lib/preloaded/refused.c): that one alone, or that one and each one after it. Whatever k is, the run may not end by a signal,
and what it leaves must be one of these:

- the answer that ample memory gives;
- no answer at all, with status 1: the program was given that memory was refused, which a question passes on;
- of the question on laws, that a value of which some law speaks is not there; of that on copies, that one is not there; of that on journals, that
  the pair was not written, since the files are in memory too;
- of a question about actions, replies of which some are `8 Memory`. Then all else that it shows (the other replies, the place in the
  history, the present text, weights, the journal) must be what the same case shows without these actions, with ample memory: so
  a call that answers Memory has changed nothing.

    [HOSTILE=whole] tests/scenes/refused_memory_calls.py CASES

With HOSTILE=whole in the environment each request of each case is refused, else some of some cases. Where there is no C compiler
the script says so, and nothing is tried.
"""
import collections
import itertools

from lib.refused_memory import Left, refusing
from lib.scenes import PROCESSORS, TOP, WHOLE, Scenes, sample

SHEET = TOP / "crates" / "cases" / "stdin"
# the questions about actions, and the reply to one that was refused memory
OF_ACTIONS = (b"session", b"weights", b"journal")
REFUSED = b"= 8 Memory\n"
# what may be at an answer's end instead, since a question says so that memory was refused to what it looks at
INSTEAD = {
    b"laws": b"= not called, since a value that a law speaks of is not there\n",
    b"copies": b"= another copy\n",
    b"journal": b"? the pair was not written\n",
}
# no run makes so many requests
NEVER = 10**15
# an action that changes nothing, for a case in which all others were refused
IDLE = b"undo 0\n"
# no answer: the program ends with this status
NONE = Left(1)
# how many cases are put where only some are, and how many requests of each are refused; where all are put, up to which one each request is
# refused by itself, since a text at the limit of length makes a million of them
SOME_CASES, SOME_REQUESTS, MOST_REQUESTS = 60, 8, 400

# What is put at once: a question, the texts that are below it for each of its cases, and the texts of the case. A text is its lines,
# without the mark of the first one.
Asked = collections.namedtuple("Asked", "question shared texts")
# A run of the program, as lib/worked_rows.py has them.
Run = collections.namedtuple("Run", "program words text files")


def texts_of(lines):
    """The texts that begin at these lines, each without its mark; `|` goes on with the one before."""
    texts = []
    for line in lines:
        if line[:1] == b"|":
            texts[-1] += line
        else:
            texts.append(line[2:] if line[1:2] == b" " else line[1:])
    return texts


def cases():
    """The questions of the sheet, case by case."""
    found, question, lines = [], None, []

    def close():
        if question and lines:
            begins = [place for place, line in enumerate(lines) if line[:1] == b">"] + [len(lines)]
            shared = texts_of(lines[: begins[0]])
            found.extend(Asked(question, shared, texts_of(lines[first:end])) for first, end in itertools.pairwise(begins))

    for line in SHEET.read_bytes().splitlines(keepends=True):
        if line[:1] in (b">", b"&", b"|"):
            lines.append(line)
        elif line.strip() and line[:1] != b"#":
            close()
            question, lines = line, []
    close()
    return found


def line_of(mark, text):
    return mark + (b"" if text.startswith(b"\n") else b" ") + text


def sheet_of(asked):
    """The sheet that has this alone."""
    marks = [b"&"] * len(asked.shared) + [b">"] + [b"&"] * len(asked.texts)
    return asked.question + b"".join(map(line_of, marks, asked.shared + asked.texts))


def run_of(asked):
    return Run("cases", [], sheet_of(asked), {})


def actions_of(asked):
    """The actions of a case; its text is after them, or below the question."""
    return asked.texts if asked.shared else asked.texts[:-1]


def without(asked, places):
    """The case without the actions of these places."""
    actions = [action for place, action in enumerate(actions_of(asked)) if place not in places] or [IDLE]
    return asked._replace(texts=actions + asked.texts[len(actions_of(asked)) :])


def answer_of(refusing, asked):
    """The answer that ample memory gives, and what it takes to be one."""
    left, _, _ = refusing.over_files(run_of(asked), str(NEVER))
    return left


def replies(asked, out):
    """The lines of an answer, and at which of them each action is answered."""
    lines = out[len(sheet_of(asked)) :].splitlines(keepends=True)
    answered = [place for place, line in enumerate(lines) if line[:2] == b"= "]
    return lines, answered[: len(actions_of(asked))]


def shows_refusals(refusing, asked, out):
    """Whether an answer is that of the case without the actions whose replies say that memory was refused."""
    lines, answered = replies(asked, out)
    refused = [number for number, place in enumerate(answered) if lines[place] == REFUSED]
    if not refused:
        return False
    rest = without(asked, refused)
    wanted, _ = replies(rest, answer_of(refusing, rest).out)
    if len(refused) == len(answered):
        wanted = wanted[1:]
    return [line for place, line in enumerate(lines) if place not in [answered[number] for number in refused]] == wanted


def lacks_some(refusing, asked, out):
    """Whether an answer that shows no replies is that of the case without some of its actions."""
    places = range(len(actions_of(asked)))
    left_out = [chosen for count in range(1, len(places) + 1) for chosen in itertools.combinations(places, count)]
    return any(replies(rest, answer_of(refusing, rest).out)[0] == replies(asked, out)[0] for rest in (without(asked, chosen) for chosen in left_out))


def is_allowed(refusing, asked, ample, left):
    if left in (ample, NONE._replace(err=left.err)):
        return True
    instead = INSTEAD.get(asked.question.split()[0])
    if instead and left.status == 0 and left.out.endswith(instead):
        return is_beginning(left.out.removesuffix(instead), ample.out)
    if left.status or not asked.question.startswith(OF_ACTIONS):
        return False
    if asked.question.startswith(b"weights"):
        return lacks_some(refusing, asked, left.out)
    return shows_refusals(refusing, asked, left.out)


def is_beginning(lines, out):
    """Whether these lines are the first ones of an answer, but for actions that were refused memory."""
    return out.startswith(lines.replace(REFUSED, b"")) or REFUSED in lines


def faults(refusing, asked):
    """What is wrong in the runs of a case."""
    ample = answer_of(refusing, asked)
    if ample.status or not ample.out.startswith(sheet_of(asked)):
        return [f"with ample memory: {ample}"]
    found, run = [], run_of(asked)
    for mark, most in (("", MOST_REQUESTS if WHOLE else SOME_REQUESTS), ("-", SOME_REQUESTS)):
        for number in some(range(1, refusing.requests(run) + 1), most):
            left, _, _ = refusing.over_files(run, f"{number}{mark}")
            if not is_allowed(refusing, asked, ample, left):
                found.append(f"request {number}{mark} refused: {str(left)[:500]}")
    return found


def some(numbers, most):
    """So many of the numbers, from the first to the last one."""
    if len(numbers) <= most:
        return numbers
    return sorted({numbers[at * (len(numbers) - 1) // (most - 1)] for at in range(most)})


def case(asked):
    return lambda refusing: faults(refusing, asked)


# Each case by its name: all of them, or some.
CHOSEN = {f"case {number}, {sheet_of(asked)[:100]!r}": case(asked) for number, asked in sample(list(enumerate(cases(), 1)), SOME_CASES)}
SCENES = Scenes(__file__, CHOSEN, lambda program: refusing({"cases": program}), lanes=PROCESSORS)

if __name__ == "__main__":
    SCENES.main()
