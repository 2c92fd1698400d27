"""Grammars drawn at random: the text of each file, and what it means by the rules of POSIX yacc."""
import random
from dataclasses import dataclass

END, ERROR = 0, 1
LITERALS = ["'+'", "'*'", "'('", "')'", "';'"]


@dataclass
class Rule:
    """A left side, its body and its precedence."""

    left: int
    body: list
    # (level, associativity), or None
    precedence: object
    # the token that gives it one, or would
    giver: object = None


@dataclass
class Grammar:
    """A grammar file and what it means; symbols are numbers, tokens first."""

    text: str
    names: list
    tokens: int
    numbers: dict
    rules: list
    precedences: dict

    def is_productive(self):
        """Whether a list of tokens derives from every nonterminal."""
        known, more = set(range(self.tokens)), True
        while more:
            new = {rule.left for rule in self.rules if known.issuperset(rule.body)} - known
            known |= new
            more = bool(new)
        return known.issuperset(rule.left for rule in self.rules)


class Draw:
    """One grammar in the making. Symbols go by their names until it stands."""

    def __init__(self, rng):
        self.rng = rng
        self.lefts = ["s", "e", "t", "u"][: rng.randint(1, 4)]
        self.words = ["NUM", "ID", "X"][: rng.randint(1, 3)]
        self.inputs = self.words + rng.sample(LITERALS, rng.randint(0, 3))
        self.seen, self.precedences, self.levels = [], {}, 0
        self.lines, self.rules, self.inner = [], [], 0
        self.start = self.lefts[0]

    def see(self, token):
        """Tokens are numbered in the order of their first appearance."""
        if token not in self.seen and token != "error":
            self.seen.append(token)

    def list_tokens(self, word, tokens):
        """Writes a line of tokens."""
        self.lines.append(" ".join([word, *tokens]))
        for token in tokens:
            self.see(token)

    def declare(self):
        """A line of tokens or of a level; a token gets one precedence at most."""
        word = self.rng.choice(["%left", "%right", "%nonassoc", "%token"])
        among = self.inputs + (["error"] if word != "%token" and self.rng.random() < 0.15 else [])
        free = [it for it in among if word == "%token" or it not in self.precedences]
        tokens = [it for it in free if self.rng.random() < 0.5]
        if tokens and word != "%token":
            self.levels += 1
            self.precedences |= {it: (self.levels, word[1:]) for it in tokens}
        if tokens:
            self.list_tokens(word, tokens)

    def head(self):
        """The declarations."""
        for _ in range(self.rng.randint(0, 3)):
            self.declare()
        bare = [it for it in self.words if it not in self.seen]
        if bare:
            self.list_tokens("%token", bare)
        if self.rng.random() < 0.2:
            self.start = self.rng.choice(self.lefts)
            self.lines.append(f"%start {self.start}")

    def part(self):
        """A symbol of a body."""
        chance = self.rng.random()
        if chance < 0.05:
            return "error"
        return self.rng.choice(self.inputs if chance < 0.5 else self.lefts)

    def rule(self, left):
        """One rule, with those of its inner actions before it; its text."""
        body, words = [], []
        for _ in range(self.rng.choice([0, 1, 1, 2, 2, 3, 3, 4])):
            if self.rng.random() < 0.06:
                self.inner += 1
                body.append(f"$${self.inner}")
                words.append("{ }")
                self.rules.append((body[-1], [], None, None))
            part = self.part()
            body.append(part)
            words.append(part)
            if part not in self.lefts:
                self.see(part)
        last = next((it for it in reversed(body) if it in self.inputs or it == "error"), None)
        if self.rng.random() < 0.15:
            last = self.rng.choice([*self.inputs, "error"])
            words += ["%prec", last]
            self.see(last)
        self.rules.append((left, body, self.precedences.get(last), last))
        return " ".join(words)

    def numbers(self):
        """A literal has its byte's number, a name the least unused one from 257 on."""
        numbers = {END: 0, ERROR: 256}
        numbers |= {at: ord(it[1]) for at, it in enumerate(self.seen, 2) if it[0] == "'"}
        names = [at for at, it in enumerate(self.seen, 2) if it[0] != "'"]
        return numbers | {at: 257 + index for index, at in enumerate(names)}

    def grammar(self):
        """The whole grammar."""
        self.head()
        self.lines.append("%%")
        for left in self.lefts:
            rules = [self.rule(left) for _ in range(self.rng.randint(1, 3))]
            self.lines.append(f"{left} : {' | '.join(rules)} ;")
        rules = [("$accept", [self.start, "$end"], None, None), *self.rules]
        names = ["$end", "error", *self.seen, *dict.fromkeys(left for left, *_ in rules)]
        at = {name: index for index, name in enumerate(names)}
        return Grammar(
            text="\n".join(self.lines) + "\n",
            names=names,
            tokens=2 + len(self.seen),
            numbers=self.numbers(),
            rules=[
                Rule(at[left], [at[it] for it in body], level, at.get(giver))
                for left, body, level, giver in rules
            ],
            precedences={at[token]: level for token, level in self.precedences.items()},
        )


def grammar_of(rng):
    """A grammar at random; some have no tables."""
    return Draw(rng).grammar()


def tokens_of(grammar, rng):
    """Tokens at random, or a sentence, sometimes with one of its tokens changed."""
    inputs = range(2, grammar.tokens)
    if rng.random() < 0.3:
        return [rng.choice(inputs) for _ in range(rng.randint(0, 12))]
    form = [grammar.rules[0].body[0]]
    for made in range(40):
        at = next((at for at, it in enumerate(form) if it >= grammar.tokens), None)
        if at is None or len(form) > 40:
            break
        rules = [rule.body for rule in grammar.rules if rule.left == form[at]]
        form[at : at + 1] = min(rules, key=len) if made > 15 else rng.choice(rules)
    tokens = [it for it in form if it in inputs]
    if tokens and rng.random() < 0.4:
        tokens[rng.randrange(len(tokens))] = rng.choice(inputs)
    return tokens


def productive(rng):
    """A grammar that is drawn until a list of tokens derives from every nonterminal."""
    while not (grammar := grammar_of(rng)).is_productive():
        pass
    return grammar


def text_of(grammar, tokens):
    """Tokens as a tokens file has them."""
    return " ".join(grammar.names[it] for it in tokens) + "\n"


def pair_of(rng):
    """A grammar file that has tables, and a tokens file for it."""
    grammar = productive(rng)
    return grammar.text.encode(), text_of(grammar, tokens_of(grammar, rng)).encode()


def dense(count, seed):
    """A grammar at random, nearly every cell of which has conflicts."""
    rng, tokens = random.Random(seed), [f"T{number}" for number in range(12)]
    names = [f"n{number}" for number in range(count)]
    lines = [f"%token {' '.join(tokens)}", "%%"]
    for name in names:
        lengths = [rng.choice([0, 1, 1, 2, 2, 3, 4]) for _ in range(5)]
        kinds = [[rng.choice([names, names, tokens]) for _ in range(it)] for it in lengths]
        bodies = [" ".join(rng.choice(of) for of in body) for body in kinds]
        lines.append(f"{name} : {' | '.join([*bodies, rng.choice(tokens)])} ;")
    return "\n".join([*lines, ""])
