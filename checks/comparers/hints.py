"""Does what `ydebug conflicts` advises, and sees by a machine in Python whether cells become so.

    hints [ydebug=PATH] [--seconds N] [--turns N] [--seed N]

Grammars with precedences are drawn at random. Each hint is followed in all ways that its words
allow: a line is put at every place, by each word that is named. A precedence that is said to settle
nothing is taken out, which must leave all cells and their conflicts as they are. The last line is
`N passed, M failed`: hints and warnings.
"""
import random
import re
import tempfile
from collections import Counter
from pathlib import Path

from checks.shared.arguments import asked
from checks.shared.precedences import Cells, Draw, whole
from checks.shared.running import ran, turns
from checks.shared.spelling import WARNED
from checks.shared.tally import Tally

KINDS = ["left", "right", "nonassoc"]
LOW, HIGH = "LOWEST", "HIGHEST"
CONFLICT = re.compile(WARNED + r"conflict \d+: state (\d+) on (\S+): ")
RIVAL = re.compile(r"  reduce  rule (\d+)")
FURTHER = re.compile(r"  Also on ")
SAME = re.compile(r"  The same on ")
IDLE_TOKEN = re.compile(
    r"\S+?:(\d+):\d+: warning: useless precedence for (\S+)"
)
IDLE_RULE = re.compile(WARNED + r"useless %prec in rule (\d+)")


class Trial:
    """A grammar and a cell of it, in which lines of precedence and %prec are tried."""

    def __init__(self, draw, state, token, rules):
        self.draw, self.state, self.token, self.rules = draw, state, token, rules
        self.levels = draw.levels

    def place(self, token):
        """The line of a token."""
        return next(at for at, (_, listed) in enumerate(self.levels) if token in listed)

    def becomes(self, levels, named=None):
        """The cell with these lines, and with what %prec names in some rules."""
        made = changed(self.draw, levels, named or {})
        action, _ = made.kept[self.state, made.grammar.names.index(self.token)]
        return action and (action[1] if action[0] == "r" else "shift")

    def holds(self, cases):
        """Whether the cell becomes what is said in all cases."""
        return all(self.becomes(levels, named) == wanted for levels, named, wanted in cases)


def changed(draw, levels, named):
    """The cells of a grammar with other lines and other names after %prec."""
    other = Draw.__new__(Draw)
    other.__dict__ |= draw.__dict__
    other.levels, other.precedences = levels, {}
    other.lows = [*draw.lows, LOW, HIGH]
    for at, (kind, listed) in enumerate(levels, 1):
        other.precedences |= {it: (at, kind) for it in listed}
    rules = enumerate(draw.rules, 1)
    other.rules = [
        (left, body, named.get(at, last), ends) for at, (left, body, last, ends) in rules
    ]
    return Cells(other.grammar())


def put(levels, at, kind, token):
    """The lines with one more at a place."""
    return [*levels[:at], (kind, [token]), *levels[at:]]


def without(levels, token):
    """The lines without a token."""
    return [(kind, [it for it in listed if it != token]) for kind, listed in levels]


def kinds_of(text):
    """The words of lines that a hint names, or all."""
    return re.findall("left|right|nonassoc", text or "left right nonassoc")


def single(trial, token, kinds, wanted, places=None):
    """The token on a line of its own, at each of these places."""
    levels = without(trial.levels, token)
    for kind in kinds:
        for at in places or range(len(levels) + 1):
            yield put(levels, at, kind, token), {}, wanted


def pair(trial, later, earlier, kinds, wanted, named=None):
    """Two tokens on lines of their own, one anywhere below the other."""
    for kind in kinds:
        for below in range(len(trial.levels) + 1):
            for above in range(below + 1):
                lines = put(trial.levels, below, kind, later)
                yield put(lines, above, kind, earlier), named or {}, wanted


def by_one(trial, token):
    """A line for the token."""
    yield from single(trial, token, ["left"], min(trial.rules))
    yield from single(trial, token, ["right"], "shift")


def by_left(trial, rule, token):
    """A line of %left for the token."""
    yield from single(trial, token, ["left"], int(rule))


def by_right(trial, token):
    """A line of %right for the token."""
    yield from single(trial, token, ["right"], "shift")


def by_two(trial, token, giver, kinds):
    """Two lines, in both orders."""
    yield from pair(trial, token, giver, kinds_of(kinds), "shift")
    yield from pair(trial, giver, token, kinds_of(kinds), min(trial.rules))


def by_later_of_two(trial, token, giver, kinds):
    """Two lines, the token on the later one."""
    yield from pair(trial, token, giver, kinds_of(kinds), "shift")


def by_earlier_of_two(trial, rule, token, giver, kinds):
    """Two lines, the token on the earlier one."""
    yield from pair(trial, giver, token, kinds_of(kinds), int(rule))


def by_token_line(trial, token, kinds, other, rule):
    """A line for the token, later or earlier than another."""
    at = trial.place(other) + 1
    last = len(trial.levels) + 1
    yield from single(trial, token, kinds_of(kinds), "shift", range(at, last))
    yield from single(trial, token, kinds_of(kinds), int(rule), range(at))


def by_rule_line(trial, giver, token, rule):
    """A line for the token of the rule, earlier or later than another."""
    at = trial.place(token) + 1
    last = len(trial.levels) + 1
    yield from single(trial, giver, KINDS, "shift", range(at))
    yield from single(trial, giver, KINDS, int(rule), range(at, last))


def by_low(trial, line, token, rule):
    """A line above that of the token, or above one for it, and a %prec."""
    named = {int(rule): LOW}
    if line == "the line of":
        at = trial.place(token)
        yield put(trial.levels, at, "right", LOW), named, "shift"
        yield put(trial.levels, at + 1, "right", LOW), named, int(rule)
    else:
        yield from pair(trial, token, LOW, ["right"], "shift", named)
        yield from pair(trial, LOW, token, ["right"], int(rule), named)


def by_right_there(trial, token):
    """The line of the token as one of %right."""
    at = trial.place(token)
    yield [*trial.levels[:at], ("right", trial.levels[at][1]), *trial.levels[at + 1 :]], {}, "shift"


def by_later(trial, token, other, kinds):
    """The token on a later line than another."""
    places = range(trial.place(other) + 1, len(trial.levels) + 1)
    yield from single(trial, token, kinds_of(kinds), "shift", places)


def by_all(trial, needs_line):
    """A %prec for each rule."""
    levels = [*trial.levels, ("right", [trial.token])] if needs_line else trial.levels
    at = next(at for at, (_, listed) in enumerate(levels) if trial.token in listed)
    lines = put(put(levels, at + 1, "right", HIGH), at, "right", LOW)
    yield lines, {rule: LOW for rule in trial.rules}, "shift"
    for rule in trial.rules:
        yield lines, {it: HIGH if it == rule else LOW for it in trial.rules}, rule


# The words of each hint after its first ones, and what follows it.
TO_CHOOSE = {
    r"name (\S+) in a line: %left reduces, %right shifts\.": by_one,
    r"name (\S+) and (\S+) on two lines of (.*): \S+ on the later one shifts, .*": by_two,
    r"name (\S+) on a line of (.*): later than (\S+) shifts .* by rule (\d+)\.": by_token_line,
    r"name (\S+) on a line of .*: earlier than (\S+) shifts .* by rule (\d+)\.": by_rule_line,
    r"write %right LOW\w* above (the line of|%right) (\S+), and .* rule (\d+): .*": by_low,
    r"(name \S+ on a line of %right, and )?give each of these rules a %prec: .*": by_all,
}
TO_SHIFT = {
    r"(\S+), name it in a line of %right\.": by_right,
    r"(\S+), name it and (\S+) on two lines of (.*), \S+ on the later one\.": by_later_of_two,
    r"instead, write %right for the line of (\S+)\.": by_right_there,
    r"instead, name (\S+) on a later line than (\S+?)(?:, one of (.*))?\.": by_later,
}
TO_REDUCE = {
    r"(\d+), name (\S+) in a line of %left\.": by_left,
    r"(\d+), name (\S+) and (\S+) on two lines of (.*), \S+ on .*": by_earlier_of_two,
}
HINTS = {f"To choose, {words}": follow for words, follow in TO_CHOOSE.items()}
HINTS |= {f"To shift {words}": follow for words, follow in TO_SHIFT.items()}
HINTS |= {f"To reduce by rule {words}": follow for words, follow in TO_REDUCE.items()}


def cases_of(trial, hint):
    """What is to become of the cell by a hint; None for a hint on the grammar."""
    for pattern, follow in HINTS.items():
        found = re.fullmatch(pattern, hint)
        if found:
            return follow(trial, *found.groups())
    return None


def judged_warning(draw, line):
    """Whether a warning that a precedence settles nothing holds; None for any other line."""
    token, rule = IDLE_TOKEN.match(line), IDLE_RULE.match(line)
    before = changed(draw, draw.levels, {}).kept
    if token:
        source = draw.text().split("\n")[int(token[1]) - 1]
        is_its = re.match(r"%(left|right|nonassoc)\b", source) and token[2] in source.split()
        return bool(is_its) and changed(draw, without(draw.levels, token[2]), {}).kept == before
    if rule:
        return changed(draw, draw.levels, {int(rule[1]): None}).kept == before
    return None


class Report:
    """The lines of a report, and the cell of which they tell."""

    def __init__(self, draw, text):
        self.draw, self.lines = draw, text.splitlines()
        self.trial, self.said, self.rest = None, [], []

    def tokens_after(self, at):
        """The tokens on the lines after one."""
        rest = self.lines[at + 1 :]
        end = next((at for at, line in enumerate(rest) if not line.startswith("    ")), len(rest))
        return [it for line in rest[:end] for it in line.split()]

    def begin(self, state, tokens, rules):
        """Other cells are told of together, the first one by its name."""
        self.trial, self.said = Trial(self.draw, state, tokens[0], rules), []
        self.rest = tokens[1:]

    def judge(self, line, trial):
        """A hint with whether it holds; none for a hint on the grammar."""
        cases = cases_of(trial, line.strip())
        return [] if cases is None else [("hints", line, trial.holds(cases))]

    def same(self, tokens, lines):
        """Hints that were told, for each further token in place of the cell's."""
        ours = self.trial
        for token in tokens:
            trial = Trial(self.draw, ours.state, token, ours.rules)
            word = re.compile(rf"(?<!\S){re.escape(ours.token)}(?=[.,:]?(?:\s|$))")
            for line in lines:
                yield from self.judge(word.sub(lambda _, it=token: it, line), trial)

    def judged(self):
        """The lines that were judged, each with whether it holds."""
        for at, line in enumerate(self.lines):
            conflict, rival = CONFLICT.match(line), RIVAL.match(line)
            if conflict:
                self.begin(int(conflict[1]), [conflict[2]], [])
            elif FURTHER.match(line) and self.trial:
                self.begin(self.trial.state, self.tokens_after(at), self.trial.rules)
            elif rival and self.trial:
                self.trial.rules.append(int(rival[1]))
            elif SAME.match(line) and self.trial:
                yield from self.same(self.tokens_after(at), self.said)
            elif line.startswith("  To ") and self.trial:
                self.said.append(line)
                yield from self.judge(line, self.trial)
                yield from self.same(self.rest, [line])
            elif re.match(WARNED, line):
                holds = judged_warning(self.draw, line)
                if holds is not None:
                    yield "warnings", line, holds


def judged(draw, text):
    """The lines of a report that were judged, each with whether it holds."""
    return Report(draw, text).judged()


def main(words):
    """Follows hints for some seconds."""
    given = asked(__doc__, words, ("ydebug",), seconds=60.0, turns=0, seed=1)
    rng, counts, tally = random.Random(given.seed), Counter(), Tally()
    with tempfile.TemporaryDirectory(prefix="hints-") as room:
        for _ in turns(given):
            draw = whole(rng, KINDS, may_end=False)
            (Path(room) / "grammar.y").write_text(draw.text())
            made = ran([given.programs["ydebug"], "conflicts", "--all", "grammar.y"], room)
            for kind, line, holds in judged(draw, made.stdout):
                counts[kind] += 1
                tally.take(kind, [] if holds else [f"{line}\n{draw.text()}"])
    print(f"{counts['hints']} hints and {counts['warnings']} warnings")
    if not counts["hints"]:
        tally.take("hints", ["there is none\n"])
    return tally.end()
