"""A recogniser by Earley's algorithm: whether a grammar derives a list of tokens."""


class Column:
    """The items of a place, a rule, a dot and where the rule began, by the symbols after their dots;
    and the nonterminals that derive nothing there."""

    def __init__(self):
        self.items, self.before, self.empty = set(), {}, set()


class Chart:
    """The columns of a list of tokens."""

    def __init__(self, grammar):
        self.bodies = [rule.body for rule in grammar.rules]
        # rule 0 without the end
        self.bodies[0] = self.bodies[0][:-1]
        self.lefts, self.rules, self.columns = [rule.left for rule in grammar.rules], {}, []
        for number, left in enumerate(self.lefts):
            self.rules.setdefault(left, []).append(number)

    def close(self, items):
        """Adds a column with some items and all that they bring in."""
        place, column, todo = len(self.columns), Column(), list(items)
        self.columns.append(column)
        while todo:
            item = todo.pop()
            if item not in column.items:
                column.items.add(item)
                todo += self.brought(item, column, place)

    def brought(self, item, column, place):
        """The items that an item brings into its column."""
        rule, dot, start = item
        if dot < len(self.bodies[rule]):
            symbol = self.bodies[rule][dot]
            column.before.setdefault(symbol, []).append(item)
            yield from ((it, 0, place) for it in self.rules.get(symbol, ()))
            if symbol in column.empty:
                yield rule, dot + 1, start
            return
        left = self.lefts[rule]
        if start == place:
            column.empty.add(left)
        for other, dot, begun in list(self.columns[start].before.get(left, ())):
            yield other, dot + 1, begun

    def derives(self, tokens):
        """Whether the start symbol derives a list of tokens."""
        self.columns = []
        self.close([(0, 0, 0)])
        for token in tokens:
            waiting = self.columns[-1].before.get(token, ())
            self.close([(rule, dot + 1, start) for rule, dot, start in waiting])
        return (0, len(self.bodies[0]), 0) in self.columns[-1].items


def derives(grammar, tokens):
    """Whether a grammar derives a list of tokens; none with `error` is asked for."""
    return Chart(grammar).derives(tokens)
