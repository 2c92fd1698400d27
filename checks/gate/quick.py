"""Runs what can run before anything is proved, while something is changed. It is not the gate.

    quick

First come the quick checks of the gate. Then, beside each other: the tests of the checks; whether
each mutant can be applied; the scenarios, by the programs in `bin/` where these are newer than
every file of `crates/`, and else by `rt try`; the crates of tests by `rt try --test`. Where the
programs in `bin/` are that new, commands of documents, hostile files and devices, drivers and
parsers in C follow, with few cases. What is left out is said, and why. The line before the last says that this isn't the
gate; the last line is `N passed, M failed`.
"""
import re
import subprocess
import sys
import time
from concurrent.futures import ThreadPoolExecutor
from dataclasses import dataclass

from checks.gate.gate import QUICK, SKIPPED, command, is_quickly_wrong
from checks.scenarios.run import are_current
from checks.shared.places import CRATES, TOP
from checks.shared.tally import Tally, sum_of

# What `rt try --test` says of its tests.
TESTS = re.compile(r"test result: \w+\. (\d+) passed; (\d+) failed;")
PROGRAMS = "yacc", "ystep", "ycc", "ydebug"
# The seconds within which a test that is tried must end; checked as it runs, it is slow.
SECONDS = 300
# What needs programs that were proved, each with the programs that it takes.
PROVED = {
    "readers": (["readers"], PROGRAMS),
    "hostile": (["hostile"], ("yacc", "ystep", "ydebug")),
    "drivers": (["drivers", "--sessions=50", "--tables=500"], ("yacc", "ystep", "ydebug")),
    "parsers": (["parsers", "--drawn=5"], PROGRAMS),
}
# How many of them run beside each other.
BESIDE = 2


@dataclass
class Part:
    """A part: its name, its words, and where it runs."""

    name: str
    words: list
    folder: object = TOP


@dataclass
class Ran:
    """What a part said, its status, and how long it took."""

    part: Part
    said: list
    status: int
    seconds: float

    def counted(self):
        """What passed and failed; it fails where it has no sum, or ends otherwise than by it."""
        told = [it for line in self.said if (it := TESTS.match(line))]
        passed, failed = map(int, told[-1].groups()) if told else sum_of(self.said[-1]) or (0, 0)
        return passed, failed or int(bool(self.status) or not passed)


def at(names):
    """The words that say where programs of bin/ are."""
    return [f"{name}={TOP}/bin/{name}" for name in names]


def crates_of_tests():
    """The crates that hold tests alone."""
    return sorted(it.name for it in CRATES.glob("*_tests"))


def parts(is_built):
    """What runs, where the programs in bin/ are of this state or not."""
    scenarios = ["scenarios", *at(PROGRAMS)] if is_built else ["scenarios", "--try"]
    yield Part("scenarios", command(scenarios))
    for name in crates_of_tests():
        words = ["rt", "try", "--test", "--seconds", str(SECONDS)]
        yield Part(name, words, CRATES / name)
    yield Part("selftest", command(["selftest"]))
    yield Part("mutants", command(["mutants", "--all", "--plan"]))
    if is_built:
        for name, (words, programs) in PROVED.items():
            yield Part(name, command([*words, *at(programs)]))


def run_part(part):
    """Runs a part."""
    begun = time.monotonic()
    pipes = {"stdin": subprocess.DEVNULL, "stdout": subprocess.PIPE, "stderr": subprocess.STDOUT}
    ran = subprocess.run(part.words, cwd=part.folder, text=True, errors="replace", **pipes)
    seconds = time.monotonic() - begun
    return Ran(part, ran.stdout.rstrip("\n").split("\n"), ran.returncode, seconds)


def tell(ran):
    """Says what came of a part: all that it said where something failed, and else its skips."""
    passed, failed = ran.counted()
    lines = ran.said if failed else [it for it in ran.said if it.startswith(SKIPPED)]
    print("".join(f"{it}\n" for it in lines), end="")
    told = f"{passed} passed, {failed} failed, {ran.seconds:.0f} seconds"
    print(f"{ran.part.name}: {told}", flush=True)


def run(quick, all_parts, left_out):
    """Runs quick checks, and then parts; the status."""
    tally, begun = Tally(), time.monotonic()
    if is_quickly_wrong(quick):
        tally.add(0, 1)
        return tally.end()
    with ThreadPoolExecutor(BESIDE) as pool:
        for ran in pool.map(run_part, all_parts):
            tell(ran)
            tally.add(*ran.counted())
    for name in left_out:
        print(f"{SKIPPED}{name}: bin/ has no programs of this state: make build")
    minutes = (time.monotonic() - begun) / 60
    print(f"This is not the gate, and proves nothing; {minutes:.1f} minutes")
    return tally.end()


def main(words):
    """Runs the quick checks."""
    if words:
        sys.exit(__doc__)
    is_built = are_current(f"{TOP}/bin/{name}" for name in PROGRAMS)
    return run(map(command, QUICK), parts(is_built), [] if is_built else PROVED)
