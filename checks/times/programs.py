"""Times whole runs of `yacc` and `ystep`, and of byacc and bison beside them where they are there.

    bench [yacc=PATH] [ystep=PATH] [FILE..]

The grammars are those of checks/data/times/sizes, each at two sizes, and the files that are named.
Each time is the least of five runs by the clock, each peak the most of them; of fewer runs where
they take over a minute. A peak that this script's own memory hides is given as `under` that.
"""
import os
import resource
import shutil
import subprocess
import tempfile
import time
from pathlib import Path

from checks.shared.arguments import asked
from checks.shared.places import DATA
from checks.shared.sentences import sentence_of
from checks.times.grammars import KINDS
from checks.times.traced import numbers_of

HERE = DATA / "times"
ENDLESS = "%left 'x' %left HI %% s : e s | 'x' ; e : %prec HI ;\n"
RUNS = 5
STEPS = (2_000, 10_000, 100_000, 1_000_000)


def run(words, room, commands, out, errors):
    """The seconds and the peak, in kilobytes, of one run in a folder."""
    files = {"stdin": open(commands), "stdout": open(out, "wb"), "stderr": open(errors, "wb")}
    start = time.perf_counter()
    process = subprocess.Popen(words, cwd=room, **files)
    _, status, usage = os.wait4(process.pid, 0)
    taken = time.perf_counter() - start
    process.returncode = os.waitstatus_to_exitcode(status)
    for file in files.values():
        file.close()
    if process.returncode:
        raise subprocess.CalledProcessError(process.returncode, words)
    return taken, usage.ru_maxrss


def timed(words, room, commands=os.devnull, out=os.devnull, errors=os.devnull):
    """The least time and the peak of five runs, as text; of fewer where they take over a minute."""
    runs = []
    while len(runs) < RUNS and sum(taken for taken, _ in runs) < 60:
        runs.append(run(words, room, commands, out, errors))
    own = resource.getrusage(resource.RUSAGE_SELF).ru_maxrss
    peak = max(peak for _, peak in runs)
    shown = f"at most {peak / 1024:.1f} MB" if peak > own else f"under {own / 1024:.0f} MB"
    return f"{min(taken for taken, _ in runs) * 1000:.1f} ms, {shown}"


def timed_or_ended(words, room):
    """The same of another program, or how it ended."""
    try:
        return timed(words, room)
    except subprocess.CalledProcessError as error:
        return f"ends with status {error.returncode}"


def tell_tables(yacc, file, room):
    """Times what makes the tables of a grammar file."""
    print(f"yacc: {timed([yacc, file], room)}")
    print(f"yacc -v: {timed([yacc, '-v', file], room)}")
    for words in (["byacc", "-v"], ["bison", "-y", "-v"]):
        if shutil.which(words[0]):
            print(f"{' '.join(words)}: {timed_or_ended([*words, file], room)}", flush=True)


def tell_all_tables(yacc, files, room):
    """Times the tables of all grammars."""
    for line in (HERE / "sizes").read_text().splitlines():
        kind, *sizes = line.split()
        for size in sizes:
            (room / "grammar.y").write_text(KINDS[kind](int(size)))
            print(f"--- {kind} {size}", flush=True)
            tell_tables(yacc, "grammar.y", room)
    for file in files:
        print(f"--- {file.name}", flush=True)
        tell_tables(yacc, file, room)


def tell_steps(ystep, grammar, tokens, steps, room):
    """Times steps forward, and forward and back, with the replies written to a file."""
    for what, commands in (("forward", "run {0}\n"), ("forward and back", "run {0}\nback {0}\n")):
        (room / "commands").write_text(commands.format(steps))
        words = [ystep, grammar, tokens]
        told = timed(words, room, room / "commands", room / "replies")
        print(f"ystep, {steps} steps {what}: {told}", flush=True)


def tell_byacc(grammar, tokens, room):
    """Times the parser that byacc makes of the grammar, over the same tokens."""
    made = ["byacc", "-t", "-d", "-b", "byacc", grammar]
    subprocess.run(made, cwd=room, check=True, stderr=subprocess.DEVNULL)
    header = (room / "byacc.tab.h").read_text()
    (room / "numbers").write_bytes(numbers_of(tokens.read_bytes(), header))
    parser = ["cc", "-O2", "-w", "-DYYMAXDEPTH=1000000", '-DPARSER="byacc.tab.c"', "-I."]
    subprocess.run([*parser, "-o", "parser", HERE / "traced.c"], cwd=room, check=True)
    for what, trace in (("trace to a file", "1"), ("no trace", "0")):
        told = timed(["./parser", "numbers", trace], room, errors=room / "trace")
        print(f"byacc, {what}: {told}", flush=True)


def tell_all_steps(ystep, files, room):
    """Times the steps of all parses."""
    (room / "endless.y").write_text(ENDLESS)
    (room / "endless.tokens").write_text("'x'\n")
    cases = [(room / "endless.y", room / "endless.tokens")]
    for file in files:
        sentence = sentence_of(file.read_bytes(), 330_000, 1)
        (room / f"{file.name}.tokens").write_text(sentence)
        cases.append((file, room / f"{file.name}.tokens"))
    for grammar, tokens in cases:
        print(f"--- {grammar.name}, a parse", flush=True)
        for steps in STEPS:
            tell_steps(ystep, grammar, tokens, steps, room)
        if shutil.which("byacc") and shutil.which("cc"):
            tell_byacc(grammar, tokens, room)


def main(words):
    """Times tables and steps."""
    given = asked(__doc__, words, ("yacc", "ystep"))
    files = [Path(it).resolve() for it in given.words]
    with tempfile.TemporaryDirectory() as room:
        tell_all_tables(given.programs["yacc"], files, Path(room))
        tell_all_steps(given.programs["ystep"], files, Path(room))
