"""Counts the allocations of each command line of a session, and refuses them from a line on.

    allocations [ystep=PATH]

A library in front of that of C gives a session one command line a read, and counts what is asked
of memory between two reads: what a line and its reply take. Over every scenario of `ystep`, the
lines that go back, show, unwind, or are no command must ask for nothing; only steps and edits may.
In some sessions every allocation is refused from the reading of a line on, and all replies must be
as usual; in one, each allocation of a line is refused by itself, and the parse goes on after it.
The last line is `N passed, M failed`.
"""
import os
import tempfile
from collections import Counter
from concurrent.futures import ThreadPoolExecutor
from dataclasses import dataclass
from functools import partial

from checks.hostile.sessions import EDITED, ERRORS, LIST, LIST_STEPS, SESSIONS, SHORT, Session
from checks.hostile.sessions import lines, steps, undone
from checks.scenarios.cases import run, stored, wrong
from checks.scenarios.folders import found_below, summed
from checks.scenarios.pages import scenarios_of
from checks.shared.arguments import asked
from checks.shared.libraries import LINES, behind, library_in
from checks.shared.places import PAGES, ROOTS, TOP
from checks.shared.tally import Tally

# What only shows, goes back or unwinds, by the first word of its line.
QUIET = {b"back", b"show", b"tree", b"unwind"}
KINDS = {"back", "to", "show", "tree", "unwind", "no command", "steps"}


@dataclass
class Line:
    """A line of the input, how often it and its reply asked for memory, and the reply."""

    text: bytes
    asked: int
    reply: bytes


def counted(it, programs, library, at=0, number=0):
    """What comes back of a session, and what each line of its input has asked for.

    From the read of the number `at` on all allocations are refused, where that isn't 0, or the
    one of some number from there on.
    """
    made, told = behind(library, partial(run, it, programs), AT=at, NUMBER=number)
    rows = [[int(word) for word in row.split()] for row in told.splitlines()]
    return made, list(lines_of(it.stdin, made["stdout"], rows[1:]))


def lines_of(stdin, stdout, rows):
    """Each line, by what was counted after its reads; a long one takes several."""
    line = Line(b"", 0, b"")
    for asked, given, replied in rows:
        text, reply = line.text + stdin[:given], line.reply + stdout[:replied]
        stdin, stdout = stdin[given:], stdout[replied:]
        line = Line(text, line.asked + asked, reply)
        if text.endswith(b"\n"):
            yield line
            line = Line(b"", 0, b"")
    if line.text:
        yield line


def is_backward(reply):
    """Whether a reply has undos alone."""
    return all(b" undo " in line for line in reply.splitlines())


def kind_of(line):
    """What a line does: `steps` where it may take memory."""
    word = line.text.removesuffix(b"\n").split(b" ")[0]
    if line.reply in (b"unknown command\n", b"bad token\n"):
        return "no command"
    if word in QUIET or word == b"to" and is_backward(line.reply):
        return word.decode()
    return "steps"


def is_session(it):
    """Whether a scenario is a session with streams as usual."""
    plain = not it.streams and not it.links and it.wanted["status"] == b"0\n"
    return it.words[:1] == ["ystep"] and plain


def sessions():
    """Every scenario that is a session, by its name."""
    for root in ROOTS:
        for folder in found_below(root):
            name = folder.relative_to(TOP).as_posix()
            yield name, stored(name)
    for page in PAGES:
        for it in scenarios_of(page):
            yield "/".join(it.folder.parts[-3:]), it
    for at, it in enumerate((*SESSIONS, SHORT, ERRORS, EDITED)):
        yield f"session {at}", it.scenario()


def counts_right(name, it, programs, library):
    """What is wrong with a session whose lines are counted, and how many there are of each kind."""
    made, obeyed = counted(it, programs, library)
    differs, kinds = judged(obeyed)
    return name, wrong(summed(made, it.wanted), it.wanted) + differs, kinds


def judged(obeyed):
    """What is wrong with lines that were counted, and how many there are of each kind."""
    kinds, differs = Counter(), []
    for line in obeyed:
        kind = kind_of(line)
        kinds[kind] += line.asked if kind == "steps" else not line.asked
        if line.asked and kind != "steps":
            differs.append(f"{line.asked} allocations at {line.text!r}\n")
    return differs, kinds


def refused_from(session, at, programs, library):
    """A session in which all allocations are refused from the reading of a line on."""
    it = session.scenario()
    made, _ = counted(it, programs, library, at)
    return f"all refused from line {at} on", wrong(made, it.wanted), Counter()


def texts_after(count):
    """What may be replied to three lines, a run, another and the undos of all steps, where an
    allocation of a step of the first is refused: it ends after some steps, and the second line
    makes the others."""
    kinds = LIST_STEPS
    for done in range(count):
        made = [*steps(kinds[:done]), "no memory", *steps(kinds[done:], done + 1)]
        yield lines(*made, *undone(kinds)).encode()


def refused_once(programs, library):
    """A run over a spoiled list, once for each of its allocations, which alone is refused."""
    it = SPOILED.scenario()
    usual, (first, *_) = counted(it, programs, library)
    differs = wrong(usual, it.wanted)
    allowed, found = set(texts_after(len(LIST_STEPS))), set()
    for number in range(1, first.asked + 1):
        made, _ = counted(it, programs, library, 1, number)
        found.add(made["stdout"])
        if made["stdout"] not in allowed or wrong({**made, "stdout": usual["stdout"]}, it.wanted):
            differs += [f"allocation {number} refused\n", *wrong(made, it.wanted)]
    if len(found) < 2:
        differs.append("no allocation of a step was refused\n")
    return "each refused once", differs, Counter()


# A list with an error, which is run twice and then undone.
SPOILED = Session(
    LIST,
    SESSIONS[0].tokens,
    [
        ("run 20", lines(*steps(LIST_STEPS))),
        ("run 20", lines("halted")),
        ("back 12", lines(*undone(LIST_STEPS))),
    ],
)
# The sessions in which all is refused from a line on, counted from 1.
FROM = [(SHORT, 2), (SESSIONS[0], 2), (SESSIONS[0], 5), (SESSIONS[1], 2), (ERRORS, 2), (EDITED, 8)]


def tasks(programs, library):
    """Each session counted, and those in which allocations are refused."""
    for name, it in sessions():
        if is_session(it):
            yield partial(counts_right, name, it, programs, library)
    for session, at in FROM:
        yield partial(refused_from, session, at, programs, library)
    yield partial(refused_once, programs, library)


def result_of(task):
    """What a task finds; a fault of the machine is one more thing that is wrong."""
    try:
        return task()
    except Exception as error:
        return str(task), [f"{type(error).__name__}: {error}\n"], Counter()


def missing_kinds(counted):
    """What should be wrong where some kind of line was never counted."""
    missing = KINDS - counted.keys()
    return [f"nothing was counted of: {', '.join(sorted(missing))}\n"] if missing else []


def main(words):
    """Counts and refuses allocations of sessions."""
    given, tally, whole = asked(__doc__, words, ("ystep",)), Tally(), Counter()
    with tempfile.TemporaryDirectory() as room, ThreadPoolExecutor(os.cpu_count()) as pool:
        library = library_in(room, LINES)
        for name, differs, kinds in pool.map(result_of, list(tasks(given.programs, library))):
            tally.take(name, differs)
            whole += kinds
    missing = missing_kinds(whole)
    if missing:
        tally.take("the kinds of lines", missing)
    said = ", ".join(f"{whole[kind]} {kind}" for kind in sorted(whole) if kind != "steps")
    print(f"lines without an allocation: {said}; allocations of steps and edits: {whole['steps']}")
    return tally.end()
