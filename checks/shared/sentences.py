"""Writes a tokens file: a sentence of a grammar, drawn at random, of some COUNT tokens.

    sentence GRAMMAR COUNT [SEED]

A derivation is drawn by lengths: each nonterminal has a length to fill, and those of a body share
that of their left side. Rules with `error` are left out.
"""
import random
import sys
from pathlib import Path

from checks.shared.reader import ERROR, File, lexemes_of
from checks.shared.spelling import spelled


def rules_of(text):
    """The start symbol, and the bodies of each nonterminal, by the names of a tokens file."""
    file, rules = File(lexemes_of(text)), {}
    for rule in file.rules:
        bodies = rules.setdefault(spelled(rule.left), [])
        if ERROR not in rule.symbols():
            bodies.append([spelled(it) for it in rule.symbols()])
    start = file.starts[0][0] if file.starts else file.rules[0].left
    return spelled(start), rules


def least_lengths(rules):
    """The length of the shortest sentence of each nonterminal."""
    least, changed = {}, True
    while changed:
        changed = False
        for left, body in ((left, body) for left, bodies in rules.items() for body in bodies):
            if all(s not in rules or s in least for s in body):
                length = sum(least.get(s, 1) for s in body)
                if length < least.get(left, length + 1):
                    least[left], changed = length, True
    return least


def reached(direct):
    """All that each name leads to, by what it leads to at once."""
    reach, changed = {left: set(found) for left, found in direct.items()}, True
    while changed:
        changed = False
        for found in reach.values():
            more = set().union(*(reach[s] for s in found if s in reach)) - found
            found |= more
            changed |= bool(more)
    return reach


def growing(rules):
    """The nonterminals without a longest sentence: those that lead back to themselves, and more."""
    inner = {
        left: {s for body in bodies for s in body} & rules.keys() for left, bodies in rules.items()
    }
    reach = reached(inner)
    loops = {s for s in rules if s in reach[s]}
    return loops | {s for s in rules if reach[s] & loops}


def richness(rules):
    """How many symbols each nonterminal leads to."""
    direct = {left: {s for body in bodies for s in body} for left, bodies in rules.items()}
    return {left: len(found) for left, found in reached(direct).items()}


def shares(total, parts, rich, rng):
    """A length for each of several nonterminals: the richest share, the others take little."""
    best, few = max(rich[s] for s in parts), min(8, total // len(parts))
    given = [0 if rich[s] == best else rng.randint(0, few) for s in parts]
    takers = [k for k, s in enumerate(parts) if rich[s] == best]
    left = total - sum(given)
    cuts = sorted(rng.randint(0, left) for _ in takers[1:])
    for k, low, high in zip(takers, [0] + cuts, cuts + [left]):
        given[k] = high - low
    return given


class Sentences:
    """Sentences of a grammar, drawn at random."""

    def __init__(self, text, rng):
        self.start, self.rules = rules_of(text)
        self.rng, self.least = rng, least_lengths(self.rules)
        self.grows, self.rich = growing(self.rules), richness(self.rules)

    def length(self, body):
        """The length of the shortest sentence of a body."""
        return sum(self.least[s] if s in self.rules else 1 for s in body)

    def best(self, body):
        """How rich the richest part of a body is that grows."""
        return max((self.rich[s] for s in body if s in self.grows), default=0)

    def body(self, symbol, wanted):
        """A body for a nonterminal that has so many tokens to fill."""
        bodies = [b for b in self.rules[symbol] if self.is_finite(b)]
        fitting = [b for b in bodies if self.length(b) <= wanted]
        fitting = fitting or [min(bodies, key=self.length)]
        more = [b for b in fitting if self.best(b) and wanted > self.least[symbol] + 3]
        if more and wanted > 60:
            richest = max(map(self.best, more))
            more = [b for b in more if self.best(b) == richest]
        return self.rng.choice(more or fitting)

    def is_finite(self, body):
        """Whether a body has a sentence."""
        return all(s not in self.rules or s in self.least for s in body)

    def filled(self, body, wanted):
        """Each symbol of a body, with the length that it has to fill."""
        parts = [s for s in body if s in self.grows]
        spare = max(0, wanted - self.length(body))
        given = iter(shares(spare, parts, self.rich, self.rng) if parts else [])
        return [(s, self.least.get(s, 1) + (next(given) if s in self.grows else 0)) for s in body]

    def draw(self, count):
        """A sentence of some tokens."""
        stack, out = [(self.start, count)], []
        while stack:
            symbol, wanted = stack.pop()
            if symbol in self.rules:
                stack += self.filled(self.body(symbol, wanted), wanted)[::-1]
            else:
                out.append(symbol)
        return out


def sentence_of(text, count, seed):
    """The tokens file of a sentence."""
    words = Sentences(text, random.Random(seed)).draw(count)
    lines = (words[at : at + 16] for at in range(0, len(words), 16))
    return "".join(f"{' '.join(line)}\n" for line in lines)


def main(words):
    """Writes a sentence."""
    path, count, seed = [*words, "1"][:3]
    sys.stdout.write(sentence_of(Path(path).read_bytes(), int(count), int(seed)))
