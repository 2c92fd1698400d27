"""Runs the gate: quick checks, then `rt ci`, the mutants, and what runs the programs that it built.

    gate

The first quick check that doesn't end with status 0 ends the gate. The last line,
`N passed, M failed`, is the sum of `rt ci` and the others; the lines before it say when the proof
of each crate began and ended, how long each runner took, what was skipped, how much of the time
other machines took away, and once more what failed.
"""
import os
import re
import resource
import shutil
import subprocess
import sys
import time
from dataclasses import dataclass

from checks.gate import mutants
from checks.gate.beside import Beside
from checks.gate.checking import repository
from checks.gate.clock import Clock, table
from checks.gate.lanes import lanes, words_of
from checks.shared.places import TOP
from checks.shared.tally import Tally, sum_of

QUICK = ["rings"], ["fault-words"], ["trace"]
# Each comparer draws for some seconds, and no more turns than were looked at before: a faster
# machine finds nothing that a slower one didn't.
SECONDS = "--seconds=25"
RUNNERS = (
    ["mutants"],
    ["selftest"],
    ["scenarios"],
    ["readers"],
    ["hostile"],
    ["refuse", "--few"],
    ["allocations"],
    ["parsers"],
    ["classes", "--few", "--drawn=2"],
    ["drivers", "--sessions=200", "--tables=2000"],
    ["compare", SECONDS, "--turns=1000"],
    ["conflicts", SECONDS, "--turns=1000"],
    ["ambiguities", SECONDS, "--turns=800"],
    ["documents", SECONDS, "--turns=120"],
    ["hints", SECONDS, "--turns=800"],
    ["choices", SECONDS, "--turns=600"],
    ["coverage", SECONDS, "--turns=600"],
    ["texts", SECONDS, "--turns=300"],
    ["verdicts"],
    ["errors", SECONDS, "--turns=1000"],
    ["faults", "--count=50"],
    ["cells", SECONDS, "--turns=600"],
    ["pages"],
)
# What some of them need beside a C compiler; without it they are skipped.
NEEDS = {"cells": "bison", "classes": "g++"}
SKIPPED = "skipped: "
PROOFS = "proofs"
# What a line has that tells of a failure; how many failures of a runner are told again, and how many
# lines of each.
WRONG = re.compile(r"FAILED|NOT PROVED|: PROVED|: BAD\b|Traceback|error\[")
MOST, LINES = 8, 12


def command(words):
    """The words of the system's for a command of this program."""
    return [sys.executable, "-m", "checks", *words]


@dataclass
class Ran:
    """What a runner said, how it ended, its seconds of a processor, and the proofs that were seen
    below it."""

    name: str
    said: list
    status: int
    spent: float
    proofs: list

    def skipped(self):
        """What it skipped."""
        return [f"{self.name}: {it}" for it in self.said if it.startswith(SKIPPED)]

    def counted(self):
        """What passed and failed; it fails where it says nothing of the kind."""
        last = self.said[-1] if self.said else ""
        found = sum_of(last)
        passed, failed = found or (0, 0)
        if not failed and (self.status or not found):
            print(f"{self.name}: status {self.status} after the line {last!r}")
            failed = 1
        return passed, failed

    def wrong(self):
        """The lines that tell what failed, each with those after it, or its last lines."""
        found = [at for at, line in enumerate(self.said) if WRONG.search(line)][:MOST]
        near = sorted({it for at in found for it in range(at, at + LINES)})
        return [self.said[it] for it in near if it < len(self.said)] or self.said[-LINES:]


def spent():
    """The seconds of a processor that all that was run has taken so far."""
    used = resource.getrusage(resource.RUSAGE_CHILDREN)
    return used.ru_utime + used.ru_stime


def streamed(name, words, look=lambda _: None):
    """Runs a command, passes its output on as it comes, and shows each line to what looks."""
    said, before = [], spent()
    # A proof that is spread over several processors takes up to half as much time again.
    how = {"RT_JOBS": str(lanes()), **os.environ}
    pipes = {"stdout": subprocess.PIPE, "text": True, "errors": "replace"}
    with subprocess.Popen(words, env=how, cwd=TOP, **pipes) as running:
        clock = Clock(running.pid)
        for line in running.stdout:
            print(line, end="", flush=True)
            look(line)
            said.append(line)
    proofs = clock.stop()
    return Ran(name, said, running.returncode, spent() - before, proofs)


def waited_for(name, beside):
    """What comes of a runner that has begun already."""
    before = spent()
    lines, status = beside.end()
    print("".join(lines), end="", flush=True)
    return Ran(name, lines, status, spent() - before, [])


def result_of(name, words, beside=None):
    """What comes of a runner, or that it is skipped; the proofs are shown to one that may begin
    beside them."""
    if beside and name == PROOFS:
        return streamed(name, words, beside.look)
    if beside and beside.running and words == beside.words:
        return waited_for(name, beside)
    need = NEEDS.get(name)
    if need and not shutil.which(need):
        lines = [f"{SKIPPED}there is no {need}\n", "0 passed, 0 failed\n"]
        return Ran(name, lines, 0, 0.0, [])
    return streamed(name, words)


def stolen():
    """Seconds that a virtual machine's processors were kept from it, 0 where nobody says."""
    words = words_of("/proc/stat")
    return int(words[8]) / os.sysconf("SC_CLK_TCK") if len(words) > 8 else 0


def tell_time(begun, stolen_before):
    """Says how long the gate took, by the clock and in processor time."""
    wall, processor = time.monotonic() - begun, spent()
    lost = stolen() - stolen_before
    print(
        f"gate: {wall / 60:.1f} minutes, {processor / 60:.1f} of processor time on"
        f" {len(os.sched_getaffinity(0))} processors, {lost / 60:.1f} stolen"
    )


def tell_proofs(results):
    """Says when the proof of each crate began and ended."""
    proofs = [it for ran in results if ran.name == PROOFS for it in ran.proofs]
    libraries = {name: it.ours for name, it in repository(TOP).crates.items()}
    print("".join(table(proofs, libraries)), end="")


def tell_runners(results):
    """Says how long each runner took, in processor time, and what was skipped."""
    told = ", ".join(f"{it.name} {it.spent / 60:.1f}" for it in results)
    print(f"minutes of a processor: {told}")
    for it in results:
        print("".join(it.skipped()), end="")


def tell_failed(results):
    """Says once more what failed, at the end, where it is seen."""
    for it in results:
        print(f"failed: {it.name}\n{''.join(it.wrong())}", end="")


def is_quickly_wrong(checks):
    """Whether one of the quick checks ends otherwise than with status 0."""
    return any(subprocess.run(words, cwd=TOP).returncode for words in checks)


def run(quick, runners, beside=None):
    """Runs quick checks, and then runners, each a name and its words, of which one may begin beside
    the proofs; the status of the gate."""
    begun, stolen_before, tally = time.monotonic(), stolen(), Tally()
    if is_quickly_wrong(quick):
        tally.add(0, 1)
        return tally.end()
    results = [result_of(*it, beside) for it in runners]
    counts = [it.counted() for it in results]
    for it in counts:
        tally.add(*it)
    tell_proofs(results)
    tell_runners(results)
    tell_time(begun, stolen_before)
    tell_failed(it for it, (_, failed) in zip(results, counts) if failed)
    return tally.end()


def mutants_beside():
    """The mutants, which wait for the crates that they change, and for the libraries of those."""
    repo = repository(TOP)
    try:
        crates = {it.crate for it in mutants.chosen(repo, [], False)}
    except mutants.Bad:
        return None
    libraries = {repo.library(it) / "format" for name in crates for it in repo.crates[name].below}
    return Beside(command(["mutants"]), crates, libraries)


def main(_):
    """Runs the gate."""
    runners = [(words[0], command(words)) for words in RUNNERS]
    proofs = PROOFS, ["rt", "ci"]
    return run(map(command, QUICK), [proofs, *runners], mutants_beside())
