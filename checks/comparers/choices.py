"""Counts which sentences a choice loses that `ydebug conflicts` offers, by a machine in Python.

    choices [ydebug=PATH] [--seconds N] [--turns N] [--seed N]

Grammars of some kinds are drawn at random: operators, statements with an optional part, rules that
want two tokens of lookahead, precedences of which some are there, idioms, and others. Where the
report says on how many sentences a choice was tried and how many it loses, all sentences of as few
tokens are made here, by canonical sets merged and a stack, and run with the lines that the choice
asks for: as many have to be there, and as many be lost; where longer ones were tried too, at least
as many. The sentence that is shown has to be accepted without the lines, and refused with them; so
has one that another order of two rules loses. Where it says what a change of rules leaves, the
change is made here, its conflicts are counted, and all sentences of as few tokens compared, those
that the tables accept also by the tables after it. In a grammar that is not ambiguous no precedence
may be offered, and one with an idiom has to be told a change. Claims that are planted, of choices
and changes that lose sentences, have to be refused. The last line is `N passed, M failed`: choices,
changes and grammars.
"""
import random
import re
import tempfile
from collections import Counter
from pathlib import Path

from checks.comparers.hints import LOW, changed, put
from checks.comparers.mends import MEND, NEW_TOKEN, language, with_rules, wrong_mend
from checks.comparers.mends import changed as rewritten
from checks.shared.arguments import asked
from checks.shared.grammars import END
from checks.shared.precedences import Cells, Draw, whole
from checks.shared.running import ran, turns
from checks.shared.tally import Tally

KINDS = ["left", "right", "nonassoc"]
TRIED = re.compile(
    r"  Tried on (?:all sentences of up to (\d+) tokens \((\d+)\)(?:, and on (\d+) longer ones?)?"
    r"|longer sentences \((\d+)\)): (.*)\."
)
CHOICE = re.compile(
    r"(?:the (shift|reduction) by %(\w+)|rule (\d+) in front) loses (?:none|(\d+), such as (.*))"
)
RIVAL = re.compile(r"  reduce  rule (\d+)")
ONE = re.compile(r"To choose, name (\S+) in a line: ")
TWO = re.compile(r"To (?:choose|shift|reduce by rule \d+).*? name (\S+) and (\S+) on two lines ")
SHIFTED = re.compile(r"To shift (\S+), name it and (\S+) on two lines ")
TOKEN = re.compile(r"To choose, name (\S+) on a line of .*: later than \S+ shifts ")
GIVER = re.compile(r"To choose, name (\S+) on a line of .*: earlier than \S+ shifts ")
OWN = re.compile(
    r"To choose, write %right LOW\w* above (the line of|%right) (\S+), .* rule (\d+):"
)
ALONE = re.compile(r"To (?:shift (\S+), name it|reduce by rule \d+, name (\S+)) (?:in|on) a line ")
MOST_REDUCTIONS, MOST_TRIALS = 1_000, 200_000


class Plain(Draw):
    """A grammar by its tokens, its lines of precedence and its rules."""

    def __init__(self, tokens, levels, rules):
        self.tokens, self.lows, self.levels = tokens, [], levels
        self.lefts = list(dict.fromkeys(left for left, _ in rules))
        self.rules = [(left, body.split(), None, False) for left, body in rules]
        self.has_end = False
        self.precedences = {}
        for at, (kind, listed) in enumerate(levels, 1):
            self.precedences |= {it: (at, kind) for it in listed}


def levels_of(rng, tokens):
    """Lines of precedence for some tokens."""
    some = [it for it in tokens if rng.random() < 0.4]
    rng.shuffle(some)
    return [(rng.choice(KINDS), [it]) for it in some]


def operators(rng):
    """Expressions with operators in the middle, before and after."""
    tokens = ["NUM", *"ABC"[: rng.randint(1, 3)]]
    rules = [("e", "NUM")]
    for token in tokens[1:]:
        form = rng.choice([f"e {token} e", f"e {token} e", f"{token} e", f"e {token}"])
        rules.append(("e", form))
    if rng.random() < 0.3:
        rules.append(("e", "e e"))
    return Plain(tokens, levels_of(rng, tokens[1:]), rules)


def optional(rng):
    """Statements of which a part may be left out."""
    tokens = ["IF", "THEN", "ELSE", "X", "DO"]
    rules = [("s", "X"), ("s", "IF s"), ("s", "IF s ELSE s")]
    if rng.random() < 0.5:
        rules[1:] = [("s", "IF X THEN s"), ("s", "IF X THEN s ELSE s")]
    if rng.random() < 0.5:
        rules.append(("s", rng.choice(["DO s", "s DO s", "DO s ELSE s"])))
    return Plain(tokens, levels_of(rng, ["ELSE", "DO"]), rules)


def two_ahead(rng):
    """Lists whose elements begin with what may end the one before."""
    mark = rng.choice(["M", "M N"])
    rules = [("s", "s r"), ("s", "r"), ("r", f"ID {mark} b"), ("b", "ID"), ("b", "b ID")]
    return Plain(["ID", *mark.split()], [], rules)


def drawn(rng):
    """Any grammar with precedences."""
    return whole(rng, KINDS, may_end=False)


def written_out(rng):
    """Two nonterminals for one token, told apart by what comes two tokens later."""
    rules = [("s", "P a Q"), ("s", "P b Q R"), ("a", "X"), ("b", "X")]
    if rng.random() < 0.5:
        rules.append((rng.choice("ab"), rng.choice(["Y", "X X"])))
    if rng.random() < 0.5:
        rules.append(("s", "Q s"))
    return Plain(["P", "Q", "R", "X", "Y"], [], rules)


def merged_states(rng):
    """Two nonterminals in states that are merged: canonical sets keep them apart."""
    ends = rng.sample("DEF", 2)
    rules = [("s", f"A x {ends[0]}"), ("s", f"B x {ends[1]}")]
    rules += [("s", f"A y {ends[1]}"), ("s", f"B y {ends[0]}")]
    rng.shuffle(rules)
    body = rng.choice(["C", "C C"])
    return Plain([*"ABCDEF"], [], [*rules, ("x", body), ("y", body)])


def nonassoc(rng):
    """Operators, some of which stand on a line of %nonassoc, beside one that stands on none."""
    levels = [("nonassoc", ["LT"]), (rng.choice(KINDS), ["ADD"])]
    rng.shuffle(levels)
    rules = [("e", "NUM"), ("e", "e LT e"), ("e", "e ADD e"), ("e", "e MUL e")]
    return Plain(["NUM", "LT", "ADD", "MUL"], levels, rules)


IDIOMS = [
    "s: X | s",
    "s: a | X; a: s | Y",
    "s: m s P X | X; m:",
    "s: o X; o: | p; p: | Y",
    "s: s s | X | Y",
    "s: s o s | X; o: P | Y",
    "s: | s i; i: | X P",
    "s: X | s p X | s p; p: | P",
    "s: X | Y s | X",
    "s: A a A | B b B | P a P | P b P; a: X | a Y X; b: X | b Y X",
]


def idiom(rng):
    """A form of rules that is known to make conflicts, alone or below further rules."""
    rules = []
    for part in rng.choice(IDIOMS).split("; "):
        left, bodies = part.split(":")
        rules += [(left, body.strip()) for body in bodies.split("|")]
    if rng.random() < 0.5:
        rules = [("r", rng.choice(["Q s Q", "s Q", "Q Q s"])), *rules]
    return Plain([*"ABPQXY"], [], rules)


STRATA = {
    "operators": operators,
    "optional": optional,
    "two ahead": two_ahead,
    "drawn": drawn,
    "written out": written_out,
    "merged states": merged_states,
    "nonassoc": nonassoc,
    "idioms": idiom,
}
# What is not ambiguous, by what it is.
PLAIN = "two ahead", "written out", "merged states"

ELSE = Plain(
    ["ELSE", "X", "L", "E", "R"],
    [],
    [("c", "c ELSE c"), ("c", "X L E R ELSE E"), ("c", "X L E R")],
)
LIST = Plain(
    ["ID", "M"],
    [],
    [("s", "s r"), ("s", "r"), ("r", "ID M b"), ("b", "ID"), ("b", "b ID")],
)
PAIR = Plain(
    ["P", "Q", "R", "X"],
    [],
    [("s", "P a Q"), ("s", "P b R"), ("s", "P b Q R"), ("a", "X"), ("b", "X")],
)
LESS = Plain(
    ["N", "LT"],
    [("nonassoc", ["LT"])],
    [("e", "e op e"), ("e", "N"), ("op", "LT")],
)
# Claims that are wrong: the grammar, the hint, and what is said of it.
PLANTED = [
    (
        ELSE,
        "To choose, name ELSE and R on two lines of %left or %right: ELSE on the later ..",
        "  Tried on all sentences of up to 20 tokens (6): the shift by %nonassoc loses none.",
    ),
    (
        LIST,
        "To choose, name ID and M on two lines of %left or %right: ID on the later ..",
        "  Tried on all sentences of up to 6 tokens (4): the reduction by %left loses none.",
    ),
    (
        LESS,
        "",
        "  With the rules of op written out in its place in rule 1 (line 4) 0 of 1 conflict is left;"
        " the language stays the same.",
    ),
    (PAIR, "", "  Without rule 3 (line 5) 0 of 1 conflict is left; the language stays the same."),
]


def taken(cells, stack, token):
    """What a stack becomes by a token: the next one, "accepted", or None."""
    stack = list(stack)
    for _ in range(MOST_REDUCTIONS):
        rule = cells.defaults.get(stack[-1])
        action = ("r", rule) if rule is not None else cells.cells[stack[-1]].get(token)
        if not action:
            return None
        if action[0] == "s":
            return [*stack, action[1]]
        if action[0] != "r":
            return "accepted"
        left, body = cells.grammar.rules[action[1]].left, cells.grammar.rules[action[1]].body
        del stack[len(stack) - len(body) :]
        stack.append(cells.gotos[stack[-1], left])
    return None


def accepts(cells, names):
    """Whether a sentence of names is accepted."""
    stack = [0]
    for name in names:
        stack = taken(cells, stack, cells.grammar.names.index(name))
        if not stack:
            return False
    return taken(cells, stack, END) == "accepted"


def sentences_of(cells, most):
    """All sentences of up to so many tokens, as lists of names."""
    names, waiting, found = cells.grammar.names, [([], [0])], []
    for words, stack in waiting:
        if taken(cells, stack, END) == "accepted":
            found.append(words)
        if len(words) == most:
            continue
        for token in range(2, cells.grammar.tokens):
            after = taken(cells, stack, token)
            if after:
                waiting.append(([*words, names[token]], after))
        if len(waiting) > MOST_TRIALS:
            return None
    return found


def at_end(levels, kind, *tokens):
    """The lines with one for each of these tokens after all others."""
    return [*levels, *((kind, [it]) for it in tokens)]


def lines_for(draw, hint, deed, kind):
    """The lines of precedence that a hint asks for, and what %prec names; None where the hint is
    of another form."""
    one, own = ONE.match(hint) or TOKEN.match(hint) or GIVER.match(hint), OWN.match(hint)
    two, shifted, alone = TWO.match(hint), SHIFTED.match(hint), ALONE.match(hint)
    if own:
        line, token, rule = own[1], own[2], int(own[3])
        if line == "the line of":
            at = next(at for at, (_, listed) in enumerate(draw.levels) if token in listed)
            lines = put(draw.levels, at + (deed != "shift"), "right", LOW)
        else:
            order = [LOW, token] if deed == "shift" else [token, LOW]
            lines = at_end(draw.levels, "right", *order)
        return lines, {rule: LOW}
    if shifted:
        return at_end(draw.levels, kind, shifted[2], shifted[1]), {}
    if two:
        order = [two[2], two[1]] if deed == "shift" else [two[1], two[2]]
        return at_end(draw.levels, kind, *order), {}
    if one:
        return at_end(draw.levels, kind, one[1]), {}
    if alone:
        return at_end(draw.levels, kind, alone[1] or alone[2]), {}
    return None


def in_front(draw, rule, before):
    """The cells of a grammar with a rule before another one."""
    rules = [(left, body, last) for left, body, last, _ in draw.rules]
    moved = rules.pop(rule - 1)
    rules.insert(before - 1, moved)
    return Cells(with_rules(draw, rules).grammar())


def wrong_in(draw, hint, tried, choice):
    """What is wrong with what is said of a choice, or nothing; the hint of an order of rules is the
    rule that is taken."""
    most, short = (int(tried[at] or 0) for at in (1, 2))
    longer = int(tried[3] or tried[4] or 0)
    lost, before = int(choice[4] or 0), Cells(draw.grammar())
    if choice[3]:
        after = in_front(draw, int(choice[3]), int(hint))
    else:
        lines = lines_for(draw, hint, choice[1], choice[2])
        if lines is None:
            return "of a hint that isn't known"
        after = changed(draw, *lines)
    sentences = sentences_of(before, most)
    if sentences is None:
        return ""
    if len(sentences) != short:
        return f"there are {len(sentences)} sentences of up to {most} tokens"
    here = sum(not accepts(after, it) for it in sentences)
    if not here <= lost <= here + longer:
        return f"it loses {here} of these"
    shown = (choice[5] or "").split()
    if lost and (not accepts(before, shown) or accepts(after, shown)):
        return "the sentence is none that it loses"
    return ""


def refused_after(draw, mend):
    """What is wrong with a change by the sentences that it refuses: one that the tables accept."""
    if NEW_TOKEN.fullmatch(mend[1]):
        return ""
    before, after = Cells(draw.grammar()), Cells(rewritten(draw, mend[1]).grammar())
    for words in sorted(language(draw, int(mend[4] or 5)) or []):
        if accepts(before, words) and not accepts(after, words):
            return f"it refuses {' '.join(words)}"
    return ""


def judged(draw, text):
    """What is said of each choice and each change in a report, with what is wrong with it."""
    hints, taken = [], None
    for line in text.splitlines():
        tried, rival = TRIED.fullmatch(line), RIVAL.match(line)
        if ": warning: conflict " in line:
            taken = None
        elif rival:
            taken = taken or rival[1]
        elif line.startswith("  To "):
            hints = [line.strip()]
        elif tried and hints:
            for part in tried[5].split("; "):
                choice = CHOICE.fullmatch(part)
                hint = taken if choice and choice[3] else hints[0]
                yield line, wrong_in(draw, hint, tried, choice) if choice else "what is it?"
        elif MEND.fullmatch(line):
            yield line, wrong_mend(draw, line) or refused_after(draw, MEND.fullmatch(line))


def planted():
    """The planted claims that weren't refused."""
    for draw, hint, line in PLANTED:
        said = f"  {hint}\n{line}" if hint else line
        if not any(wrong for _, wrong in judged(draw, said)):
            yield f"{line}\n{draw.text()}"


def kind_of(line):
    """Of which kind a claim is."""
    if MEND.fullmatch(line):
        return "changes"
    return "loses" if re.search(r"loses \d", line) else "loses none"


def main(words):
    """Tries choices for some seconds."""
    given = asked(__doc__, words, ("ydebug",), seconds=60.0, turns=0, seed=1)
    rng, counts, tally = random.Random(given.seed), Counter(), Tally()
    with tempfile.TemporaryDirectory(prefix="choices-") as room:
        for turn in turns(given):
            name = list(STRATA)[turn % len(STRATA)]
            draw = STRATA[name](rng)
            (Path(room) / "grammar.y").write_text(draw.text())
            made = ran([given.programs["ydebug"], "conflicts", "--all", "grammar.y"], room)
            told = list(judged(draw, made.stdout))
            for line, wrong in told:
                counts[kind_of(line)] += 1
                tally.take(name, [f"{line}\n{wrong}\n{draw.text()}"] if wrong else [])
            offered = [it for it in made.stdout.splitlines() if it.startswith("  To choose, ")]
            if name in PLAIN:
                tally.take(name, [f"{offered}\n{draw.text()}"] if offered else [])
            if name == "idioms":
                lacks = not any(MEND.fullmatch(it) for it in made.stdout.splitlines())
                tally.take(name, [f"no change is told\n{draw.text()}"] if lacks else [])
            if told:
                counts[f"{name} with choices"] += 1
    print(", ".join(f"{number} {word}" for word, number in sorted(counts.items())))
    tally.take("planted", list(planted()))
    if not counts["loses"] or not counts["loses none"] or not counts["changes"]:
        tally.take("choices", ["none loses, or each does, or there is no change\n"])
    return tally.end()
