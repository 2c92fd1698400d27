"""Compares verdicts with sessions: over every scenario's files, and over sentences drawn at random.

    verdicts [ydebug=PATH] [ystep=PATH] [--count N] [GRAMMAR..]

Verdicts are those of `ydebug check --plain`. A session's replies to `run 1000000` say what each
must be: the position of the acceptance, or the place of the first error that is detected, which is
after the tokens shifted before it. With `--all` it must say each error that the session reports, and no
other: after one none is, until three tokens were shifted. Of each GRAMMAR, N sentences (100) are drawn, and a token of
every other one is changed. Every difference is shown; the last line is `N passed, M failed`.
"""
import random
import re
import tempfile
from concurrent.futures import ThreadPoolExecutor
from pathlib import Path

from checks.scenarios.folders import found_below, lay, read
from checks.shared.arguments import asked
from checks.shared.places import ROOTS
from checks.shared.running import ran
from checks.shared.sentences import sentence_of
from checks.shared.tally import Tally


def said_of(replies):
    """What the lines of a run come to."""
    shifted = 0
    for line in replies.splitlines():
        position, _, kind = line.partition(" ")
        if kind == "accept":
            return f"accepted at {position}"
        if kind == "detect":
            return f"rejected at token {shifted + 1}"
        shifted += kind.startswith("shift ")
    return "limit"


def reported_in(replies):
    """The numbers of the tokens at which the lines of a run report an error."""
    passed = wait = 0
    for line in replies.splitlines():
        kind = line.partition(" ")[2]
        if kind == "detect":
            if not wait:
                yield passed + 1
            wait = 3
        elif kind.startswith("discard "):
            passed += 1
        elif kind.startswith("shift ") and kind != "shift error":
            passed, wait = passed + 1, max(wait - 1, 0)


def compare_all(programs, grammar, tokens, tally):
    """Compares the errors that are said of a tokens file with those that a session reports."""
    ydebug, ystep = programs
    made = ran([ystep, grammar, tokens], None, "run 1000000\n")
    if made.returncode:
        return
    wanted = [*reported_in(made.stdout)]
    said = ran([ydebug, "check", "--all", grammar, tokens]).stdout
    found = [int(it) for it in re.findall(r": error: rejected at token (\d+): ", said)]
    told = f"errors at {wanted} by a session, at {found} by check\n"
    tally.take(f"{tokens}, all errors", [] if found == wanted else [told])


def session_says(ystep, grammar, tokens):
    """What a session says of a tokens file, or why there is none."""
    made = ran([ystep, grammar, tokens], None, "run 1000000\n")
    if made.returncode:
        return made.stderr.strip().removeprefix("ystep: ")
    return said_of(made.stdout)


def refusal(message):
    """The code and the line of a refused grammar file, as a session says them."""
    line, code = re.search(r":(?:(\d+):\d+:)? error: (\w+): ", message).groups()
    if code == "G13":  # `ydebug` says which rule is above a limit, a session line 1
        line = 1
    return f"{code} at line {line}" if line else code


def verdicts_on(ydebug, grammar, files):
    """What is said of each tokens file, or of a grammar file without tables."""
    made = ran([ydebug, "check", "--plain", grammar, *files])
    if not made.stdout:
        return [refusal(made.stderr)] * len(files)
    return [line.partition(": ")[2] for line in made.stdout.splitlines()[1:]]


def compare(programs, grammar, files, tally):
    """Compares what is said of tokens files; each that differs is shown."""
    ydebug, ystep = programs
    made = verdicts_on(ydebug, grammar, files)
    with ThreadPoolExecutor() as pool:
        wanted = list(pool.map(lambda it: session_says(ystep, grammar, it), files))
    if len(made) != len(files):
        tally.take(grammar, [f"{len(made)} verdicts on {len(files)} files\n"])
    for path, says, verdict in zip(files, wanted, made):
        told = f"{says} by a session, {verdict} by the verdict\n"
        tally.take(path, [] if says == verdict else [told])


def pairs_of_scenarios(room):
    """The grammar file and the tokens file of each scenario of `ystep`, laid into a room."""
    for root in ROOTS:
        for at, folder in enumerate(found_below(root)):
            scenario, inner = read(folder, root, True), room / root.name / str(at)
            names = scenario.words[1:]
            is_pair = scenario.words[0] == "ystep" and len(names) == 2
            if is_pair and all(name in scenario.inputs for name in names):
                lay(scenario.inputs, inner)
                yield [str(inner / name) for name in names]


def changed(words, rng):
    """A list of tokens with one of them another, or left out."""
    at = rng.randrange(len(words))
    return words[:at] + rng.choice([[], [rng.choice(words)]]) + words[at + 1 :]


def drawn(grammar, count, room, rng):
    """Files of sentences of a grammar, every other one with a change."""
    files = []
    for number in range(count):
        words = sentence_of(Path(grammar).read_bytes(), rng.randint(1, 60), number).split()
        words = changed(words, rng) if number % 2 and words else words
        file = room / f"{number}"
        file.write_text(" ".join(words))
        files.append(str(file))
    return files


def main(words):
    """Compares verdicts with sessions."""
    given = asked(__doc__, words, ("ydebug", "ystep"), count=100)
    rng, tally = random.Random(1), Tally()
    programs = [given.programs[it] for it in ("ydebug", "ystep")]
    with tempfile.TemporaryDirectory() as room:
        for grammar, tokens in pairs_of_scenarios(Path(room)):
            compare(programs, grammar, [tokens], tally)
            compare_all(programs, grammar, tokens, tally)
        for at, grammar in enumerate(given.words):
            inner = Path(room) / f"drawn{at}"
            inner.mkdir()
            files = drawn(grammar, given.count, inner, rng)
            compare(programs, grammar, files, tally)
            for file in files:
                compare_all(programs, grammar, file, tally)
    return tally.end()
