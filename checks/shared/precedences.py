"""Grammars with precedences, drawn at random for bison, and what each of their cells does."""
from checks.shared.grammars import END, Grammar, Rule
from checks.shared.tables import Tables

LEVELS = ["left", "right", "nonassoc", "precedence"]


class Draw:
    """A file for bison, and the grammar that it becomes."""

    def __init__(self, rng, kinds=LEVELS):
        self.rng, self.kinds = rng, kinds
        self.tokens = ["A", "B", "C", "D"][: rng.randint(2, 4)]
        self.lows = ["LOW", "HIGH"][: rng.randint(0, 2)]
        self.lefts = ["s", "r", "t", "u", "v"][: rng.randint(2, 5)]
        self.has_end = rng.random() < 0.3
        self.levels, self.precedences = [], {}
        self.rules = []

    def declare(self):
        """Draws the levels."""
        free = self.tokens + self.lows
        self.rng.shuffle(free)
        while free and len(self.levels) < 4:
            kind = self.rng.choice(self.kinds)
            listed, free = free[:2], free[2:]
            listed = listed[: self.rng.randint(1, 2)]
            self.levels.append((kind, listed))
            ours = "nonassoc" if kind == "precedence" else kind
            self.precedences |= {it: (len(self.levels), ours) for it in listed}

    def body(self, left, start):
        """A body: one token in many cases, so that several rules meet in a cell."""
        if left != self.lefts[0] and self.rng.random() < 0.6:
            return [self.tokens[0]]
        among = [it for it in self.lefts if it != self.lefts[0]] if self.has_end else self.lefts
        count = self.rng.choice([1, 2, 2, 3, 3])
        return [self.rng.choice(among + self.tokens) for _ in range(count)]

    def draw(self):
        """Draws all rules."""
        self.declare()
        for left in self.lefts:
            for _ in range(self.rng.randint(1, 4)):
                body, last = self.body(left, self.lefts[0]), None
                if self.rng.random() < 0.4:
                    last = self.rng.choice(self.tokens + self.lows)
                ends = self.has_end and left == self.lefts[0] and self.rng.random() < 0.4
                self.rules.append((left, body, last, ends))
        return self

    def text(self, *head):
        """The file, with some lines in front."""
        lines = [*head, "%token " + " ".join(self.tokens + self.lows)]
        lines += ["%token END 0"] * self.has_end
        lines += ["%" + " ".join([kind, *listed]) for kind, listed in self.levels]
        lines.append("%%")
        for left, body, last, ends in self.rules:
            prec = f" %prec {last}" if last else ""
            lines.append(f"{left} : {' '.join(body)}{' END' * ends}{prec} ;")
        return "\n".join([*lines, ""])

    def precedence(self, body, last, ends):
        """That of a rule: by what is named, or by the last token of the body but the end."""
        named = last or next((it for it in reversed(body) if it in self.tokens), None)
        return self.precedences.get(named)

    def grammar(self):
        """The grammar that the file becomes."""
        names = ["$end", "error", *self.tokens, *self.lows, "$accept", *self.lefts]
        at = {name: number for number, name in enumerate(names)}
        rules = [Rule(at["$accept"], [at[self.lefts[0]], END], None)]
        for left, body, last, ends in self.rules:
            precedence = self.precedence(body, last, ends)
            rules.append(Rule(at[left], [at[it] for it in body], precedence))
        tokens = at["$accept"]
        levels = {at[it]: level for it, level in self.precedences.items()}
        return Grammar("", names, tokens, {}, rules, levels)

    def is_whole(self):
        """Whether bison throws no rule away: all left sides are reached and derive tokens."""
        reached, more = {self.lefts[0]}, True
        while more:
            bodies = [body for left, body, _, _ in self.rules if left in reached]
            more = {it for body in bodies for it in body if it in self.lefts} - reached
            reached |= more
        return reached == set(self.lefts) and self.grammar().is_productive()


class Cells(Tables):
    """Tables that keep what each cell with a candidate does, and whether it counts a conflict."""

    def __init__(self, grammar):
        self.kept = {}
        super().__init__(grammar)

    def cell(self, state, token, shifts, rules):
        """The action of a cell, which is kept."""
        before = self.shift_reduce, self.reduce_reduce
        action = super().cell(state, token, shifts, rules)
        if shifts or rules:
            counts = before != (self.shift_reduce, self.reduce_reduce)
            self.kept[state, token] = action, counts
        return action


def whole(rng, kinds=LEVELS, may_end=True):
    """A draw of which bison throws no rule away; only where it may, the end stands in bodies."""
    while True:
        draw = Draw(rng, kinds)
        draw.has_end &= may_end
        if draw.draw().is_whole():
            return draw
