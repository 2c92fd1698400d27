"""Refuses allocations of a run: each of them once by itself, and from each of them on all.

    refuse [yacc=PATH] [ystep=PATH] [ydebug=PATH] [calls=PATH] [ycc=PATH] [--few | GRAMMAR..]

An allocator in front of that of C refuses the calls of some numbers, over every example and some
scenarios, or over a few of them. Each run must end as usual, or with `no memory` and status 3,
nothing on standard output and of each file a beginning. A session may also go on: then each step
that was refused says `no memory`, and all else is as if nothing had been asked for there.
`calls`, which makes each call by itself, makes a refused one again, and where it is refused once
more, goes on with the calls that take no memory. What
`ydebug check` says of an input may be `no memory`, with status 3; it may also end after a line.
Of each GRAMMAR, whose runs are long, the first 2,000 allocations are refused, then every 97th, and
the last 97. The last line is `N passed, M failed`.
"""
import os
import re
import sys
import tempfile
from collections import Counter
from concurrent.futures import ProcessPoolExecutor
from dataclasses import replace
from functools import partial
from pathlib import Path

from checks.scenarios.cases import run, scenario, stored, wrong
from checks.scenarios.folders import found_below
from checks.shared.arguments import asked
from checks.shared.libraries import REFUSED, library_in, refusing
from checks.shared.places import EXAMPLES, TOP
from checks.shared.programs import every
from checks.shared.sentences import sentence_of
from checks.shared.tally import Tally

EVERY, STRIDE, ALL = 2_000, 97, 10**9
NO_MEMORY = b"no memory\n"
# What no example has: messages, help, the line on conflicts, files that are there before, edits,
# files that are imported.
OTHERS = """
yacc/absent-grammar yacc/help yacc/no-word yacc/old-files-replaced yacc/refused-grammar
yacc/shift-reduce-conflict ystep/absent-tokens ystep/fault-foreign-byte ystep/help ystep/no-word
sessions/inner-action sessions/dangling-else trees/sum-and-product tokens/unknown-word
edits/missing-operator recovery/counter
ycc/expected
""".split()
FEW = ["edits", "one-rule", "recovery"]
# A file that is imported.
FEW_OTHERS = ["ycc/expected"]


def refused_at(first, last, it, programs, library):
    """What comes back of a run with some allocations refused, and how many it asked for."""
    return refusing(first, last, library, partial(run, it, programs))


# How a run may end


def is_refusal(made, it):
    """Whether a run ended with no memory, and has left a beginning of each file, or none."""
    message = it.words[0].encode() + b": " + NO_MEMORY
    ended = {"stdout": b"", "message": message, "status": b"3\n"}
    if ended != {name: made[name] for name in ended}:
        return False
    before = {f"left/{path}": text for path, text in it.inputs.items()}
    files = {name: text for name, text in made.items() if name.startswith("left/")}
    is_begun = (it.wanted.get(name, b"").startswith(text) for name, text in files.items())
    is_left = (text == before.get(name) for name, text in files.items())
    kept = all(files.get(name) == text for name, text in before.items() if text == it.wanted[name])
    return kept and all(map(max, is_begun, is_left)) and before.keys() <= files.keys()


KNOWN = {}


def output(lines, it, programs):
    """What a session replies to some lines, as usual."""
    stdin = b"".join(lines)
    key = stdin, *it.inputs.items()
    if key not in KNOWN:
        made = run(replace(it, stdin=stdin), programs)
        KNOWN[key] = made["stdout"].splitlines(keepends=True)
    return KNOWN[key]


def same_until(some, others):
    """How many of some lines stand before the first that is another one."""
    pairs = enumerate(zip(some, others))
    return next((at for at, (a, b) in pairs if a != b), min(len(some), len(others)))


def goes_on(made, it, programs):
    """Whether steps of a session were refused, and it went on each time from where it was."""
    left = made["stdout"].splitlines(keepends=True)
    if it.words[0] != "ystep" or NO_MEMORY not in left:
        return False
    obeyed = []
    for line in it.stdin.splitlines(keepends=True):
        usual = output([*obeyed, line], it, programs)[len(output(obeyed, it, programs)) :]
        done = same_until(usual, left)
        if done == len(usual):
            obeyed.append(line)
        elif left[done : done + 1] == [NO_MEMORY]:
            obeyed += [b"run %d\n" % done] if done else []
            done += 1
        left = left[done:]
    return not left and not wrong({**made, "stdout": it.wanted["stdout"]}, it.wanted)


MADE = re.compile(rb"\d+ (insert|drop|shift|reduce|accept|detect|pop|discard|fail)\b.*")


def is_made_again(made, it):
    """Whether a call was refused and made again, or some were refused twice, and what takes no
    memory followed: the undos of all steps."""
    if it.words[0] != "calls":
        return False
    usual, lines = (text.splitlines() for text in (it.wanted["stdout"], made["stdout"]))
    refused = [line for line in lines if line.endswith(b": no memory")]
    others = [line for line in lines if line not in refused]
    if len(refused) == 1:
        return others == usual and made["status"] == b"0\n"
    if not refused or len(refused) % 2 or made["status"] != b"3\n":
        return False
    steps, asked = ([line for line in some if MADE.fullmatch(line)] for some in (others, usual))
    kinds = [line.split(b" ", 1)[1] for line in steps]
    mirrored = [b"%d undo %s" % (at, kind) for at, kind in enumerate(kinds)]
    undone = [line for line in others if b" undo " in line]
    return steps == asked[: len(steps)] and undone == mirrored[::-1]


def is_uncalled(made, it):
    """Whether there was no memory for the arguments of `calls`."""
    told = made["message"].endswith(NO_MEMORY) and made["status"] == b"3\n"
    return it.words[0] == "calls" and told and not made["stdout"]


def told_of(lines):
    """The files that lines tell of, one by one; the text of a file stands after blanks."""
    return [line.split(b":")[0] for line in lines if not line.startswith(b" ")]


def is_told(made, it):
    """Whether `ydebug` says no memory in place of lines, or ends with it after some, and all
    other lines are as usual."""
    refused = made["message"] == b"ydebug: " + NO_MEMORY
    if it.words[0] != "ydebug" or made["status"] != b"3\n" or made["message"] and not refused:
        return False
    usual, lines = (text.splitlines() for text in (it.wanted["stdout"], made["stdout"]))
    others, left = [line for line in lines if not line.endswith(b": no memory")], iter(usual)
    files, all_files = map(told_of, (lines, usual))
    is_begun = files == all_files[: len(files)] if refused else files == all_files
    return is_begun and (refused or others != lines) and all(line in left for line in others)


def way_of(made, it, programs):
    """How a run has ended, or none where it may not end so."""
    if not wrong(made, it.wanted):
        return "as usual"
    if is_refusal(made, it):
        return "end with no memory"
    if goes_on(made, it, programs):
        return "go on after a step"
    if is_made_again(made, it):
        return "make a call again, or what takes no memory"
    return "say no memory" if is_uncalled(made, it) or is_told(made, it) else None


# What is run


def calls_over(it):
    """The calls by themselves over the files of a session."""
    files = {name: it.inputs[name] for name in it.words[1:]}
    return replace(it, words=["calls", *it.words[1:]], stdin=b"", inputs=files)


def scenarios(programs, few):
    """The examples by their names, and the other scenarios by theirs."""
    for folder in found_below(EXAMPLES):
        name, it = folder.parent.name, stored(folder.relative_to(TOP).as_posix())
        if few and name not in FEW:
            continue
        yield name, it
        if it.words[0] == "ystep":
            yield name, with_usual(calls_over(it), programs)
    for name in FEW_OTHERS if few else OTHERS:
        yield name, stored(f"scenarios/{name}")


def with_usual(it, programs):
    """A run over files that no scenario has, whose usual texts are those of an undisturbed run."""
    return replace(it, wanted=run(it, programs))


def over_file(path, programs):
    """Both programs over a grammar file; the tokens are a sentence of it, drawn at random."""
    tokens = sentence_of(Path(path).read_bytes(), 60, 1).encode()
    inputs = {"grammar.y": Path(path).read_bytes(), "tokens": tokens}
    yield with_usual(scenario(["yacc", "-v", "grammar.y"], inputs), programs)
    lines = b"run 50\ntree\nshow\ndrop\nback 20\nrun 900\nshow\nback 900\n"
    session = with_usual(scenario(["ystep", "grammar.y", "tokens"], inputs, lines), programs)
    yield session
    yield with_usual(calls_over(session), programs)


def numbers_of(calls, is_long):
    """Which allocations are refused: each, or of many the first ones, then some, and the last."""
    if not is_long:
        return range(1, calls + 1)
    some = [*range(1, EVERY + 1), *range(EVERY, calls, STRIDE), *range(calls - STRIDE, calls + 1)]
    return sorted({number for number in some if 1 <= number <= calls})


def refused_once(number, from_there_on, it, programs, library):
    """How a run ended with allocations refused, and what differs where it may not end so."""
    made, _ = refused_at(number, ALL if from_there_on else number, it, programs, library)
    way = way_of(made, it, programs)
    return way or "wrong", [] if way else wrong(made, it.wanted)


def refused_in_turn(name, it, from_there_on, is_long, programs, library, pool):
    """How the runs of one scenario ended, each with other allocations refused; says so."""
    made, calls = refused_at(0, 0, it, programs, library)
    ways = Counter({"wrong": 1} if wrong(made, it.wanted) or not calls else {})
    numbers = numbers_of(calls, is_long)
    once = partial(
        refused_once, from_there_on=from_there_on, it=it, programs=programs, library=library
    )
    how = " and all after it" if from_there_on else ""
    for number, (way, differs) in zip(numbers, pool.map(once, numbers, chunksize=8)):
        ways[way] += 1
        if differs:
            print(f"{it.words[0]}, {name}: allocation {number}{how} refused")
            sys.stdout.writelines(differs)
    said = ", ".join(f"{ways[way]} {way}" for way in sorted(ways))
    counts = f"{calls} allocations, each{how} refused, {len(numbers)} runs"
    print(f"{it.words[0]}, {name}: {counts}: {said}", flush=True)
    return ways


def runs(few, files, programs):
    """What is run: the name of each run, how, and whether only some allocations are refused."""
    for name, it in [] if files else scenarios(programs, few):
        if it.words[0] in programs:
            yield name, it, False, False
            yield name, it, True, False
    for path in files:
        for it in over_file(path, programs):
            yield Path(path).name, it, False, True


def main(words):
    """Refuses allocations of runs one after the other."""
    given, whole = asked(__doc__, words, every(), few=False), Counter()
    programs = given.programs
    with tempfile.TemporaryDirectory() as room, ProcessPoolExecutor(os.cpu_count()) as pool:
        library = library_in(room, REFUSED)
        for some in runs(given.few, given.words, programs):
            whole += refused_in_turn(*some, programs, library, pool)
    return Tally(whole.total() - whole["wrong"], whole["wrong"]).end()
