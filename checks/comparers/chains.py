"""Where the tokens of conflicts come from, as a report says it, by all canonical LR(1) item sets."""
import re

from checks.shared.grammars import END

HEAD = re.compile(r"  (\S+) can come after rule (\d+) from:")
ITEM = re.compile(r"    state (\d+)  rule (\d+)(?: \(line \d+\))?  (\S+):(.*)")
MOST_RULES = 3


class Chains:
    """The merged states of a grammar, and the states that lead to each."""

    def __init__(self, checked):
        self.grammar, self.canonical = checked.grammar, checked.canonical
        self.cores, self.gotos = checked.order, checked.gotos
        self.bodies = [rule.body for rule in self.grammar.rules]
        self.before = {}
        for (state, symbol), to in self.gotos.items():
            self.before.setdefault((to, symbol), []).append(state)

    def rest(self, item):
        """What stands after the symbol at the dot of an item."""
        return self.bodies[item[0]][item[1] + 1 :]

    def begins(self, item, token):
        """Whether that can begin with the token."""
        return token in self.canonical.first_of(self.rest(item))

    def vanishes(self, item):
        """Whether that is nullable."""
        return self.canonical.nullable.issuperset(self.rest(item))

    def openers(self, state, rule):
        """The items of a state that have the left side of a rule after their dots."""
        left = self.grammar.rules[rule].left
        return [it for it in self.cores[state] if self.bodies[it[0]][it[1] : it[1] + 1] == [left]]

    def shortest(self, state, rule, token):
        """How many items the shortest chain has for a rule that is complete in a state."""
        todo, far = [(state, rule, len(self.bodies[rule]))], 0
        seen = set(todo)
        while todo:
            far, new = far + 1, set()
            for at, number, dot in todo:
                openers = [] if dot else self.openers(at, number)
                if any(self.begins(it, token) for it in openers):
                    return far
                if (at, number, dot, token) == (0, 0, 0, END):
                    return far
                new |= {(at, *it) for it in openers if self.vanishes(it)}
                if dot:
                    ways = self.before.get((at, self.bodies[number][dot - 1]), [])
                    new |= {(it, number, dot - 1) for it in ways}
            todo = list(new - seen)
            seen |= new
        return None

    def walked(self, state, symbols):
        """The state that symbols lead to from a state."""
        for symbol in symbols:
            state = self.gotos.get((state, symbol))
        return state

    def wrong(self, chain, state, rule, token):
        """What is wrong with the items that put a token after a rule that is complete in a state."""
        steps = [*chain[1:], (state, rule, len(self.bodies[rule]))]
        for (at, *item), (to, number, dot) in zip(chain, steps):
            if item not in map(list, self.openers(at, number)):
                return "no such item comes before"
            if self.walked(at, self.bodies[number][:dot]) != to:
                return "another state follows"
        if not chain or not self.begins(chain[0][1:], token):
            return "the token doesn't come from there"
        if not all(self.vanishes(item) for _, *item in chain[1:]):
            return "what stands after an item is not nullable"
        made = sum(1 + dot for _, _, dot in steps)
        least = self.shortest(state, rule, token)
        return None if made == least else f"{made} items for {least}"


def told_in(part, names):
    """The chains that were told of one conflict, each with its rule and token."""
    found = []
    for line in part:
        if head := HEAD.fullmatch(line):
            found.append((int(head[2]), names.index(head[1]), []))
        elif (item := ITEM.fullmatch(line)) and found:
            dot = item[4].split().index(".")
            found[-1][2].append((int(item[1]), int(item[2]), dot))
    return found


def wrong_chains(checked, part, state, token):
    """What is wrong with the chains of one conflict."""
    chains, names = Chains(checked), checked.grammar.names
    told = told_in(part, names)
    rules = checked.complete(checked.items[checked.order[state]], token)
    if [it[:2] for it in told] != [(rule, token) for rule in sorted(rules)[:MOST_RULES]]:
        return "not each rule has a chain"
    each = (chains.wrong(chain, state, rule, token) for rule, _, chain in told)
    return next(filter(None, each), None)
