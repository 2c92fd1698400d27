"""Imports grammars with precedences, drawn at random, and compares their cells with bison's.

    cells [ydebug=PATH] [--seconds N] [--turns N] [--seed N]

Bison says in XML what it does in each cell. What yacc does in the cells of what the file becomes is
that of the machine in Python. `ydebug import` has to refuse the file where they do something else
in a cell that a parse of bison can reach; else it has to say of its changes that conflicts stay
where the same cells have one, and to count the conflicts as bison does. It takes bison. The last
line is `N passed, M failed`.
"""
import random
import sys
import tempfile
import xml.etree.ElementTree as ElementTree
from collections import Counter
from pathlib import Path

from checks.peers.bison import conflicts_in, is_there, said_counts
from checks.shared.arguments import asked
from checks.shared.grammars import END
from checks.shared.precedences import Cells, whole
from checks.shared.running import ran, turns
from checks.shared.tally import Tally

STAY, MAY_NOT = "; language and conflicts stay", "; the language stays"
EXPECTED = ["%expect 99999", "%expect-rr 99999"]


class State:
    """A state of bison: its ways, what it reduces by at tokens, its errors and its conflicts."""

    def __init__(self, state):
        actions = state.find("actions")
        found = list(actions.iterfind("transitions/transition"))
        self.ways = {it.get("symbol"): int(it.get("state")) for it in found}
        self.errors = {it.get("symbol") for it in actions.iterfind("errors/error")}
        self.reductions, self.lost = {}, Counter()
        for it in actions.iterfind("reductions/reduction"):
            if it.get("enabled") == "true":
                self.reductions[it.get("symbol")] = it.get("rule")
            else:
                self.lost[it.get("symbol")] += 1


def bison_of(path, folder):
    """The states of bison."""
    words = "bison -Wnone -Dlr.default-reduction=accepting --xml=bison.xml -o bison.c"
    ran([*words.split(), path], folder, check=True)
    tree = ElementTree.parse(folder / "bison.xml")
    return [State(it) for it in tree.iterfind("automaton/state")]


class Comparison:
    """What differs: whether another thing is done, and whether other cells have conflicts."""

    def __init__(self, draw, states):
        self.names, self.end = draw.grammar().names, "END" if draw.has_end else "$end"
        self.ours, self.states = Cells(draw.grammar()), states
        self.deeds, self.conflicts = [], []
        found, waiting = {0: 0}, [0]
        for state in waiting:
            self.compare(state, found[state])
            for name, to in states[state].ways.items():
                if name != self.end and to not in found:
                    found[to] = self.ours.gotos[found[state], self.names.index(name)]
                    waiting.append(to)
        reached = set(found.values())
        self.conflicts += [
            cell for cell, (_, counts) in self.ours.kept.items() if counts and cell[
                0
            ] not in reached
        ]

    def deed(self, state, name, accepts):
        """What bison does; a shift of the end in a body is the reduction after it."""
        it = self.states[state]
        if name in it.errors:
            return None
        if name in it.ways and name == self.end and not accepts:
            after = self.states[it.ways[name]].reductions
            return ("r", int(after.get(self.end) or after["$default"]))
        if name in it.ways:
            return "shift"
        rule = it.reductions.get(name) or it.reductions.get("$default")
        return ("r", int(rule)) if rule and rule != "accept" else None

    def compare(self, state, ours):
        """Compares the cells of two states."""
        for (at, token), (action, counts) in self.ours.kept.items():
            if at != ours:
                continue
            name = self.end if token == END else self.names[token]
            accepts = action == ("acc",)
            wanted = action if action and action[0] == "r" else "shift" if action else None
            bison = self.states[state]
            if self.deed(state, name, accepts) != wanted:
                self.deeds.append((ours, name))
            is_shifted = name == self.end and name in bison.ways and not accepts
            # Where the token is forbidden, one rule that is left is no conflict.
            lost = bison.lost[name] > (name in bison.errors)
            if is_shifted and not lost:
                lost = self.states[bison.ways[name]].lost[self.end] > 0
            elif is_shifted:
                self.conflicts.append((ours, name))
            if lost != counts:
                self.conflicts.append((ours, name))


def counts_of(path, folder):
    """The conflicts that bison counts."""
    words = ["bison", "-Wnone", "-v", "--report-file=bison.output", "-o", "bison.c", path]
    ran(words, folder, check=True)
    return conflicts_in((folder / "bison.output").read_text())


def wanted_of(draw, folder):
    """What is to be said of a file: whether it is refused, whether conflicts stay, the counts."""
    (folder / "bison.y").write_text(draw.text())
    found = Comparison(draw, bison_of("bison.y", folder))
    return bool(found.deeds), not found.conflicts, counts_of("bison.y", folder)


def judged(wanted, status, said):
    """What is wrong with an answer, or None."""
    refused, stay, counts = wanted
    if (status == 1) != refused or status > 1:
        return f"status {status}"
    if refused:
        return None if ": error: " in said and STAY not in said else "not told"
    if (STAY in said) != stay or (MAY_NOT in said) == stay:
        return f"conflicts {'stay' if stay else 'do not stay'}"
    ours = said_counts(said, 99999)
    return None if ours == counts else f"{ours} conflicts, {counts} of bison"


def kind_of(wanted):
    """What is to be said of a file, in a word."""
    refused, stay, _ = wanted
    return "refused" if refused else "same" if stay else "other conflicts"


def compared(ydebug, folder, draw):
    """What is to be said of a file, what is wrong with what is said, and that."""
    (folder / "grammar.y").write_text(draw.text(*EXPECTED))
    made = ran([ydebug, "import", "grammar.y"], folder)
    wanted = wanted_of(draw, folder)
    return wanted, judged(wanted, made.returncode, made.stderr), made.stderr


def main(words):
    """Compares cells for some seconds."""
    given = asked(__doc__, words, ("ydebug",), seconds=60.0, turns=0, seed=1)
    rng, counts, tally = random.Random(given.seed), Counter(), Tally()
    if not is_there():
        sys.exit("cells: there is no bison")
    with tempfile.TemporaryDirectory(prefix="cells-") as room:
        for turn in turns(given):
            draw = whole(rng)
            wanted, wrong, said = compared(given.programs["ydebug"], Path(room), draw)
            counts[kind_of(wanted)] += 1
            tally.take(f"grammar {turn}", [f"{wrong}\n{draw.text()}{said}"] if wrong else [])
    print(f"{counts['refused']} refused, {counts['other conflicts']} with other conflicts")
    return tally.end()
