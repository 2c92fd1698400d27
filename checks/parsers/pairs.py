"""Grammars with tokens, and the table and the steps that `yacc` and `ystep` make of them."""
import re
import sys
from typing import NamedTuple

from checks.scenarios.folders import Fault, Scenario, found_below, read
from checks.shared.places import DRIVERS, ROOTS
from checks.shared.spelling import names_of

# The most steps of a parse that are compared.
MOST = 20_000
DIGEST = re.compile(rb"a table with the digest ([0-9a-f]{8})\n")
SAID = re.compile(rb"tokens: error: rejected at token \d+: (.*?)(?:; can't tell of .*)?\n")


class Case(NamedTuple):
    """A table, tokens by their names, the steps of `ystep`; the digest that `ydebug` says, and what
    it says of the first error, nothing where there is none."""

    table: bytes
    names: list
    steps: str
    digest: object
    said: object = None


def pairs_in(folder, root):
    """Each grammar with each tokens file that a scenario gives a program."""
    try:
        scenario = read(folder, root, True)
    except Fault:
        return
    files = [scenario.inputs[word] for word in scenario.words if word in scenario.inputs]
    yield from ((files[0], tokens) for tokens in files[1:])


def pairs_of_scenarios():
    """The pairs of all scenarios."""
    for root in ROOTS:
        for folder in found_below(root):
            yield from pairs_in(folder, root)


def runs_of(pairs, has_names):
    """What `yacc`, `ystep` and, where it is there, `ydebug` are given, pair by pair."""
    for grammar, tokens in pairs:
        files = {"grammar": grammar, "tokens": tokens}
        yield Scenario(DRIVERS, ["yacc", "grammar"], b"", files, {}, {}, {})
        run = b"run %d\n" % MOST
        yield Scenario(DRIVERS, ["ystep", "grammar", "tokens"], run, files, {}, {}, {})
        if has_names:
            yield Scenario(DRIVERS, ["ydebug", "rules", "grammar"], b"", files, {}, {}, {})
            words = ["ydebug", "check", "grammar", "tokens"]
            yield Scenario(DRIVERS, words, b"", files, {}, {}, {})


def taken(made):
    """What came back of a run; the check ends where it came to nothing."""
    if isinstance(made, Fault):
        sys.exit(f"{made}")
    return made


def digest_in(told):
    """The digest that a list of rules says, or a word where it says none."""
    found = DIGEST.search(told)
    return found[1] if found else b"none"


def said_in(told):
    """What a verdict says of the first error, nothing where it accepts; `None` where it says that it
    can't tell."""
    found = SAID.match(told)
    if found:
        return found[1].decode()
    return "" if b": accepted after " in told else None


def cases_of(pairs, way, programs):
    """The case of each pair that no program refuses."""
    runs = list(runs_of(pairs, "ydebug" in programs))
    made = [taken(it) for it in way.run_all(runs, programs)]
    many = len(runs) // max(len(pairs), 1)
    for at, (_, tokens) in enumerate(pairs):
        table, steps, *told = made[at * many : (at + 1) * many]
        if table["status"] == steps["status"] == b"0\n":
            rules, verdict = [it["stdout"] for it in told] if told else (None, b"")
            digest = digest_in(rules) if told else None
            told_steps = steps["stdout"].decode()
            made_of = table["left/y.tab"], names_of(tokens), told_steps, digest
            yield Case(*made_of, said_in(verdict))
