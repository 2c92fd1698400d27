"""The text of a table, `y.tab`, read: docs/FORMATS.md says what each line is."""
from dataclasses import dataclass, field


class Foreign(Exception):
    """Why a text is no table."""


@dataclass
class Table:
    """What a table says; tokens are the first symbols, and an action is its kind and its number."""

    names: list = field(default_factory=list)
    tokens: int = 0
    numbers: dict = field(default_factory=dict)
    rules: list = field(default_factory=list)
    states: range = range(0)
    defaults: dict = field(default_factory=dict)
    actions: dict = field(default_factory=dict)
    gotos: dict = field(default_factory=dict)

    def leads(self):
        """The symbol that leads to each state, by its name."""
        shifts = ((to, token) for (_, token), (kind, to) in self.actions.items() if kind == "s")
        gotos = ((to, symbol) for (_, symbol), to in self.gotos.items())
        return {to: self.names[symbol] for to, symbol in (*shifts, *gotos)}


class Lines:
    """The lines of a text, taken one after another."""

    def __init__(self, text):
        self.lines, self.at = text.split("\n"), 0

    def next(self, parts):
        """The words of the next line, of which the last one may have blanks."""
        words = self.lines[self.at].split(" ", parts - 1) if self.at < len(self.lines) else []
        self.at += 1
        if len(words) != parts:
            raise Foreign(f"line {self.at}: it has other than {parts} words")
        return words

    def count(self, word):
        """The number on a line that begins with a word."""
        found, number = self.next(2)
        if found != word or not number.isdigit():
            raise Foreign(f"line {self.at}: it is no line on {word}")
        return int(number)


def read_symbols(lines, table):
    """Reads the lines of the symbols."""
    for at in range(lines.count("symbols")):
        number, kind, value, name = lines.next(4)
        if number != str(at) or kind not in ("t", "n"):
            raise Foreign(f"line {lines.at}: no symbol {at}")
        table.names.append(name)
        if kind == "t":
            table.tokens += 1
            table.numbers[name] = int(value)


def read_rules(lines, table):
    """Reads the lines of the rules."""
    for at in range(lines.count("rules")):
        number, left, length = map(int, lines.next(3))
        if number != at:
            raise Foreign(f"line {lines.at}: no rule {at}")
        table.rules.append((left, length))


def read_cell(words, table):
    """Reads a line of a default rule, an action or a goto."""
    kind, *numbers = words
    if kind == "d" and len(numbers) == 2:
        table.defaults[int(numbers[0])] = int(numbers[1])
    elif kind == "a" and numbers[2:] == ["acc"]:
        table.actions[int(numbers[0]), int(numbers[1])] = "acc", 0
    elif kind == "a" and len(numbers) == 4:
        table.actions[int(numbers[0]), int(numbers[1])] = numbers[2], int(numbers[3])
    elif kind == "g" and len(numbers) == 3:
        table.gotos[int(numbers[0]), int(numbers[1])] = int(numbers[2])
    else:
        raise Foreign(f"no cell: {' '.join(words)}")


def read_all(text):
    """The table of a text; a number that is none is a ValueError."""
    lines, table = Lines(text), Table()
    if lines.next(2)[0] != "table":
        raise Foreign("line 1: no table begins here")
    read_symbols(lines, table)
    read_rules(lines, table)
    table.states = range(lines.count("states"))
    if lines.lines[-2:] != ["end", ""]:
        raise Foreign("the table doesn't end")
    for line in lines.lines[lines.at : -2]:
        read_cell(line.split(" "), table)
    return table


def table_of(text):
    """The table of the bytes of a file."""
    try:
        return read_all(text.decode())
    except ValueError as why:
        raise Foreign(f"{why}") from why
