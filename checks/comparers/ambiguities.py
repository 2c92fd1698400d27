"""Sentences and trees that `ydebug conflicts` tells of rivals, by a parser in Python that counts.

    ambiguities [ydebug=PATH] [--seconds N] [--turns N] [--seed N]

Each sentence with two trees must have at least two by a count over all its parts, and both trees
that are drawn must be made by rules of the grammar, one form below both, and differ. A sentence that
is told of a rule must be one in which that rule ends where its period stands, and a sentence that is
told of the shift must go on with the conflict's token. Grammars are drawn at random; what scenarios
say is looked at by the tests. The last line is `N passed, M failed`: reports.
"""
import random
import re
import tempfile
from collections import Counter
from pathlib import Path

from checks.shared.arguments import asked
from checks.shared.grammars import productive
from checks.shared.running import ran, turns
from checks.shared.spelling import WARNED
from checks.shared.tables import Tables
from checks.shared.tally import Tally

HEAD = re.compile(WARNED + r"conflict \d+: state \d+ on (\S+): ")
TWO = "  The grammar is ambiguous: two trees for "
BY = re.compile(r"  by (?:the (?:shift|acceptance)|rule (\d+)(?: \(line \d+\))?):(.*)")
# What stands in place of a hint where no ambiguity was found.
NO_OFFER = "  Unless the grammar is ambiguous here, each choice loses sentences, so none is offered."
HINT = re.compile(r"  To (?:choose|shift|reduce|do)\b|  Or give rule ")
ROOT = re.compile(r"( +)(\S+)  rule (\d+)")
LEAVES = re.compile(r"( +)(\S.*)")
# What is said where no sentence with two trees was found, and how far all of them were gone over.
IN_VAIN = re.compile(
    r"  (?:No sentence with two trees was found|"
    r"None of the sentences of up to (\d+) tokens \((\d+)\) has two trees here)\."
)
REFUSED = re.compile(r"    The tables refuse it at (?:token (\d+)|its end)\.")
INDENT, STEP = 4, 2
# The most steps of a parse that is looked at.
MOST_STEPS = 10_000
ENDLESS = "endless"


class Counts:
    """How many trees each symbol has over each part of a sentence, two for any more."""

    def __init__(self, grammar, tokens):
        self.grammar, self.tokens = grammar, tokens
        self.trees = {}
        self.rules = {}
        for rule in grammar.rules[1:]:
            self.rules.setdefault(rule.left, []).append(rule)
        for length in range(len(tokens) + 1):
            for start in range(len(tokens) - length + 1):
                self.settle(start, start + length)

    def settle(self, start, end):
        """Counts over one part until no count grows."""
        grows = True
        while grows:
            grows = False
            for left, rules in self.rules.items():
                made = sum(self.ways(rule.body, start, end) for rule in rules)
                if min(made, 2) > self.of(left, start, end):
                    self.trees[left, start, end] = min(made, 2)
                    grows = True

    def of(self, symbol, start, end):
        """How many trees a symbol has over a part."""
        if symbol < self.grammar.tokens:
            return int(end == start + 1 and self.tokens[start] == symbol)
        return self.trees.get((symbol, start, end), 0)

    def ways(self, body, start, end):
        """In how many ways a body is a part, two for any more."""
        ways = {start: 1}
        for symbol in body:
            after = Counter()
            for at, count in ways.items():
                for to in range(at, end + 1):
                    after[to] += count * self.of(symbol, at, to)
            ways = {at: min(count, 2) for at, count in after.items() if count}
        return ways.get(end, 0)


def parts_above(counts, start):
    """The parts over which symbols stand in trees of the whole sentence."""
    whole = (start, 0, len(counts.tokens))
    found, waiting = set(), [whole] if counts.of(*whole) else []
    while waiting:
        part = waiting.pop()
        if part in found:
            continue
        found.add(part)
        left, begin, end = part
        for rule in counts.rules.get(left, []):
            waiting.extend(children(counts, rule.body, begin, end))
    return found


def children(counts, body, begin, end):
    """The parts over which nonterminals of a body stand where the body is a part."""
    for at, symbol in enumerate(body):
        if symbol < counts.grammar.tokens:
            continue
        for start in range(begin, end + 1):
            if not counts.ways(body[:at], begin, start):
                continue
            for to in range(start, end + 1):
                if counts.of(symbol, start, to) and counts.ways(body[at + 1 :], to, end):
                    yield symbol, start, to


def wrong_two(grammar, tokens):
    """What is wrong with a sentence that is told to have two trees."""
    count = Counts(grammar, tokens).of(grammar.rules[0].body[0], 0, len(tokens))
    return None if count == 2 else f"{count} trees"


def wrong_one(grammar, tokens, dot, rule, token):
    """What is wrong with a sentence in which a rule is told to end at the period, or a shift to be."""
    counts, start = Counts(grammar, tokens), grammar.rules[0].body[0]
    if not counts.of(start, 0, len(tokens)):
        return "no sentence"
    if tokens[dot : dot + 1] != ([token] if token else []):
        return "not the token of the conflict"
    if rule is None:
        return None
    left, body = grammar.rules[rule].left, grammar.rules[rule].body
    ends = {part for part in parts_above(counts, start) if part[0] == left and part[2] == dot}
    stands = any(counts.ways(body, begin, dot) for _, begin, _ in ends)
    return None if stands else f"rule {rule} doesn't end there"


def refused_by(grammar, tokens):
    """The place of the token that a parse by the tables refuses, none where it accepts; `ENDLESS`
    where it doesn't end in so many steps."""
    tables, stack, taken = Tables(grammar), [0], 0
    for _ in range(MOST_STEPS):
        ahead = tokens[taken] if taken < len(tokens) else 0
        action = tables.action(stack[-1], ahead)
        if action is None:
            return taken + 1
        if action[0] == "acc":
            return None
        if action[0] == "s":
            stack.append(action[1])
            taken += 1
        else:
            rule = grammar.rules[action[1]]
            del stack[len(stack) - len(rule.body) :]
            stack.append(tables.gotos[stack[-1], rule.left])
    return ENDLESS


def read_words(words, names):
    """Symbols by their names, and the place of the period among them."""
    dot = words.index(".")
    return [names.index(it) for it in words[:dot] + words[dot + 1 :]], dot


def tree_in(lines, names):
    """A drawn tree: a list of its root's name, its rule, and its children; or a leaf alone."""
    stack, top = [], None
    for line in lines:
        root = ROOT.fullmatch(line)
        if not root and not stack:
            return next(names.index(it) for it in line.split() if it != ".")
        level = (len((root or LEAVES.fullmatch(line))[1]) - INDENT) // STEP
        del stack[level:]
        if root:
            node = [names.index(root[2]), int(root[3]), []]
            if stack:
                stack[-1][2].append(node)
            top = top or node
            stack.append(node)
        else:
            stack[-1][2].extend(names.index(it) for it in line.split() if it != ".")
    return top


def symbol_of(node):
    """The symbol of a node."""
    return node if isinstance(node, int) else node[0]


def form_of(node):
    """The leaves below a node."""
    if isinstance(node, int):
        return [node]
    return [it for child in node[2] for it in form_of(child)]


def is_made(grammar, node):
    """Whether a tree is made by rules."""
    if isinstance(node, int):
        return True
    left, rule, below = node
    wanted = grammar.rules[rule]
    fits = wanted.left == left and list(wanted.body) == [symbol_of(it) for it in below]
    return fits and all(is_made(grammar, it) for it in below)


def wrong_trees(grammar, drawn):
    """What is wrong with trees that are drawn."""
    if any(lines[-1:] == ["    .."] for lines in drawn):
        return None
    one, other = (tree_in(lines, grammar.names) for lines in drawn)
    if not (is_made(grammar, one) and is_made(grammar, other)):
        return "no tree of rules"
    if one == other:
        return "one tree twice"
    # what is below a symbol is left out where the other tree derives it otherwise
    is_cut = isinstance(one, int) != isinstance(other, int) and symbol_of(one) == symbol_of(other)
    return None if is_cut or form_of(one) == form_of(other) else "trees of two forms"


class Told:
    """What is told of one conflict."""

    def __init__(self, part):
        self.token = HEAD.match(part[0])[1]
        self.two, self.apart, self.drawn = None, [], []
        self.is_offered = any(map(HINT.match, part))
        self.is_refused = NO_OFFER in part
        is_tree = False
        for line in part:
            by = BY.fullmatch(line)
            if line.startswith(TWO):
                self.two = line.removeprefix(TWO).split()
            elif by and by[2]:
                self.apart.append([int(by[1]) if by[1] else None, by[2].split(), None])
            elif (refused := REFUSED.fullmatch(line)) and self.apart:
                self.apart[-1][2] = int(refused[1]) if refused[1] else len(self.apart[-1][1])
            elif by:
                self.drawn.append([])
            elif is_tree and line.startswith("    "):
                self.drawn[-1].append(line)
            is_tree = bool(by and not by[2]) or (is_tree and line.startswith("    "))


def wrong_apart(grammar, told, counts):
    """What is wrong with the sentences that are told of rivals. Of one whose parse doesn't end it isn't
    told that the tables refuse it."""
    names = grammar.names
    for rule, words, refused in told.apart:
        counts["sentences"] += 1
        counts["of these refused by the tables"] += refused is not None
        tokens, dot = read_words(words, names)
        wrong = wrong_one(grammar, tokens, dot, rule, names.index(told.token))
        place = refused_by(grammar, tokens)
        if wrong or refused != (None if place == ENDLESS else place):
            return wrong or f"refused at {place}"
    return None


def wrong_offer(told, counts):
    """What is wrong with what is offered: a hint where a sentence has two trees, and none where it was
    sought in vain."""
    counts["conflicts without an offer"] += told.is_refused
    if told.is_refused and (told.is_offered or told.two):
        return "offered, and not"
    return "offered" if told.apart and told.is_offered else None


def wrong_told(grammar, told, counts):
    """What is wrong with what is told of one conflict."""
    names, wrong = grammar.names, wrong_offer(told, counts)
    if wrong:
        return wrong
    if told.two:
        counts["sentences with two trees"] += 1
        tokens, _ = read_words(told.two, names)
        return wrong_two(grammar, tokens) or wrong_trees(grammar, told.drawn)
    return wrong_apart(grammar, told, counts)


def differences(grammar, text, counts):
    """What is wrong with the sentences of a report."""
    for part in text.split("\n\n")[1:]:
        lines = part.splitlines()
        if lines and HEAD.match(lines[0]):
            wrong = wrong_told(grammar, Told(lines), counts)
            if wrong:
                return f"{wrong}:\n{part}"
    return None


def compared(ydebug, room, rng, counts):
    """What is wrong with the sentences told of one grammar; nothing where all is well."""
    grammar = productive(rng)
    (Path(room) / "grammar.y").write_text(grammar.text)
    made = ran([ydebug, "conflicts", "--all", "grammar.y"], room)
    counts["conflicts"] += made.stdout.count(": warning: conflict ")
    counts["searches in vain"] += len(IN_VAIN.findall(made.stdout))
    wrong = differences(grammar, made.stdout, counts)
    return [f"{grammar.text}{wrong}\n{made.stderr}"] if wrong or made.returncode else []


def main(words):
    """Looks at sentences for some seconds."""
    given = asked(__doc__, words, ("ydebug",), seconds=60.0, turns=0, seed=1)
    rng, counts, tally = random.Random(given.seed), Counter(), Tally()
    with tempfile.TemporaryDirectory(prefix="ambiguities-") as room:
        for turn in turns(given):
            tally.take(f"grammar {turn}", compared(given.programs["ydebug"], room, rng, counts))
    print(", ".join(f"{number} {it}" for it, number in counts.items()))
    for it in ("sentences with two trees", "sentences"):
        if not counts[it]:
            tally.take(it, ["there is none\n"])
    return tally.end()
