"""Tables, plainly: all canonical LR(1) item sets, joined where their cores are the same, and a cell
for each state and token."""
from checks.shared.grammars import END


class Canonical:
    """The canonical LR(1) collection (Aho, Sethi and Ullman, section 4.7).

    An item is a rule, a dot and a lookahead.
    """

    def __init__(self, grammar):
        self.grammar = grammar
        self.nullable, self.first = set(), {it: {it} for it in range(grammar.tokens)}
        for at in range(grammar.tokens, len(grammar.names)):
            self.first[at] = set()
        self.saturate()
        self.start = self.closure({(0, 0, END)})
        self.gotos = {}
        found, todo = {self.start}, [self.start]
        while todo:
            items = todo.pop()
            for symbol in self.ahead(items):
                to = self.gotos[items, symbol] = self.goto(items, symbol)
                if to not in found:
                    found.add(to)
                    todo.append(to)
        self.sets = found

    def saturate(self):
        """Finds what is nullable and the first tokens of all symbols."""
        before = None
        while before != (before := (len(self.nullable), sum(map(len, self.first.values())))):
            for rule in self.grammar.rules:
                self.first[rule.left] |= self.first_of(rule.body)
                if self.nullable.issuperset(rule.body):
                    self.nullable.add(rule.left)

    def first_of(self, symbols, after=()):
        """The first tokens of a list of symbols, with what follows it."""
        found = set()
        for symbol in symbols:
            found |= self.first[symbol]
            if symbol not in self.nullable:
                return found
        return found | set(after)

    def rest(self, item):
        """The symbols after the dot."""
        return self.grammar.rules[item[0]].body[item[1] :]

    def ahead(self, items):
        """The symbols that some item has its dot before, except the end."""
        return {self.rest(it)[0] for it in items if self.rest(it)} - {END}

    def closure(self, items):
        """The items with all that they bring in."""
        items, todo = set(items), list(items)
        while todo:
            rest, look = self.rest(item := todo.pop()), item[2]
            for number, rule in enumerate(self.grammar.rules):
                if rest and rule.left == rest[0]:
                    new = {(number, 0, it) for it in self.first_of(rest[1:], [look])} - items
                    items |= new
                    todo += new
        return frozenset(items)

    def goto(self, items, symbol):
        """The set that a symbol leads to."""
        over = [item for item in items if self.rest(item)[:1] == [symbol]]
        return self.closure({(rule, dot + 1, look) for rule, dot, look in over})


def core_of(items):
    """The items without their lookaheads."""
    return frozenset((rule, dot) for rule, dot, _ in items)


def merged(canonical):
    """The cores in the order in which they are found, the items of all sets that have each, and the
    gotos between their numbers."""
    items, gotos = {}, {}
    for it in canonical.sets:
        items.setdefault(core_of(it), set()).update(it)
    for (it, symbol), to in canonical.gotos.items():
        gotos[core_of(it), symbol] = core_of(to)
    order = [core_of(canonical.start)]
    for core in order:
        for symbol in range(len(canonical.grammar.names)):
            to = gotos.get((core, symbol))
            if to is not None and to not in order:
                order.append(to)
    number = {core: at for at, core in enumerate(order)}
    numbered = {(number[core], symbol): number[to] for (core, symbol), to in gotos.items()}
    return order, items, numbered


class Tables:
    """The cells by precedences, and the rules of consistent states. An action is `("s", state)`,
    `("r", rule)` or `("acc",)`."""

    def __init__(self, grammar):
        self.grammar, self.shift_reduce, self.reduce_reduce = grammar, 0, 0
        order, items, self.gotos = merged(Canonical(grammar))
        self.states = range(len(order))
        self.cells = [{} for _ in order]
        self.defaults = {}
        for state, core in enumerate(order):
            self.fill(state, core, items[core])

    def before(self, core):
        """The symbols that the items of a core have their dots before."""
        bodies = [(self.grammar.rules[rule].body, dot) for rule, dot in core]
        return {body[dot] for body, dot in bodies if dot < len(body)}

    def fill(self, state, core, items):
        """All cells of a state, and the rule by which it always reduces, if it is consistent."""
        before, cells = self.before(core), self.cells[state]
        bodies = [rule.body for rule in self.grammar.rules]
        for token in range(self.grammar.tokens):
            on = [(rule, dot) for rule, dot, look in items if look == token]
            complete = {rule for rule, dot in on if dot == len(bodies[rule])} - {0}
            action = self.cell(state, token, token in before, complete)
            if action:
                cells[token] = action
        shifts_none = before.isdisjoint(range(self.grammar.tokens))
        if shifts_none and len(set(cells.values())) == 1:
            self.defaults[state] = next(iter(cells.values()))[1]

    def rank(self, rule, token):
        """How a rule stands to a token that could be shifted: beat, lose, ban or rest."""
        ours, theirs = self.grammar.rules[rule].precedence, self.grammar.precedences.get(token)
        if ours is None or theirs is None:
            return "rest"
        if ours[0] != theirs[0]:
            return "beat" if ours[0] > theirs[0] else "lose"
        return {"left": "beat", "right": "lose", "nonassoc": "ban"}[theirs[1]]

    def cell(self, state, token, shifts, rules):
        """The action of a cell; its conflicts are counted."""
        ranks = {rule: self.rank(rule, token) if shifts else "rest" for rule in rules}
        if "ban" in ranks.values():
            return None
        if shifts and "beat" not in ranks.values():
            self.shift_reduce += list(ranks.values()).count("rest")
            return ("acc",) if token == END else ("s", self.gotos[state, token])
        left = [rule for rule in rules if ranks[rule] != "lose"]
        self.reduce_reduce += max(len(left) - 1, 0)
        return ("r", min(left)) if left else None

    def action(self, state, token):
        """The action of a state on a token."""
        if state in self.defaults:
            return ("r", self.defaults[state])
        return self.cells[state].get(token)

    def state_lines(self, state):
        """The lines of a state."""
        if state in self.defaults:
            yield f"d {state} {self.defaults[state]}"
        else:
            for token, action in sorted(self.cells[state].items()):
                yield " ".join(map(str, ("a", state, token, *action)))
        for symbol in range(self.grammar.tokens, len(self.grammar.names)):
            if (state, symbol) in self.gotos:
                yield f"g {state} {symbol} {self.gotos[state, symbol]}"

    def text(self):
        """The table as `yacc` writes it."""
        grammar = self.grammar
        lines = ["table 2", f"symbols {len(grammar.names)}"]
        for at, name in enumerate(grammar.names):
            kind = f"t {grammar.numbers[at]}" if at < grammar.tokens else "n -"
            lines.append(f"{at} {kind} {name}")
        lines.append(f"rules {len(grammar.rules)}")
        lines += [f"{at} {rule.left} {len(rule.body)}" for at, rule in enumerate(grammar.rules)]
        lines.append(f"states {len(self.states)}")
        for state in self.states:
            lines += self.state_lines(state)
        return "\n".join([*lines, "end", ""])

    def conflicts_line(self):
        """What `yacc` says of all conflicts."""
        if not self.shift_reduce and not self.reduce_reduce:
            return ""
        return f"conflicts: {self.shift_reduce} shift/reduce, {self.reduce_reduce} reduce/reduce\n"
