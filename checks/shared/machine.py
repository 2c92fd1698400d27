"""A session, plainly: a machine that keeps all its past configurations, and what it replies."""
import re
from typing import NamedTuple

from checks.shared.grammars import END, ERROR

COMMAND = re.compile(r"(run|back|to) ([0-9]{1,7})")
MODES_AT_END = ("accepted", "failed")
ERROR_STEPS = ("detect", "pop ", "shift error", "discard ", "fail")


class Configuration(NamedTuple):
    """Where a parse stands."""

    # pairs of a symbol and its tree
    stack: tuple
    # pairs of a token and its place
    rest: tuple
    counter: int = 0
    errors: int = 0
    mode: str = "running"


class Session:
    """The history is a list of pairs: the words of a step, and the configuration that it made."""

    def __init__(self, tables, tokens):
        self.tables, self.grammar, self.names = tables, tables.grammar, tables.grammar.names
        first = Configuration((), tuple((token, place) for place, token in enumerate(tokens, 1)))
        self.history, self.lines = [("", first)], []

    @property
    def now(self):
        """The configuration of the position."""
        return self.history[-1][1]

    @property
    def position(self):
        """How many steps stand."""
        return len(self.history) - 1

    def action(self, token):
        """What the tables say of a token."""
        state = 0
        for symbol, _ in self.now.stack:
            state = self.tables.gotos[state, symbol]
        return self.tables.action(state, token)

    def next(self):
        """The next step and its configuration, or none where the parse has ended."""
        if self.now.mode in MODES_AT_END:
            return None
        return self.popping() if self.now.mode == "popping" else self.running()

    def popping(self):
        """The step of a recovery."""
        now, action = self.now, self.action(ERROR)
        if action and action[0] == "s":
            stack = now.stack + ((ERROR, "error"),)
            return "shift error", now._replace(stack=stack, mode="running")
        if not now.stack:
            return "fail", now._replace(mode="failed")
        return f"pop {self.names[now.stack[-1][0]]}", now._replace(stack=now.stack[:-1])

    def running(self):
        """The step of a parse that runs."""
        now = self.now
        token, place = now.rest[0] if now.rest else (END, 0)
        action = self.action(token)
        if action is None:
            return self.at_error(token)
        if action[0] == "acc":
            return "accept", now._replace(mode="accepted")
        if action[0] == "r":
            return f"reduce {action[1]}", self.reduced(action[1])
        stack = now.stack + ((token, f"{self.names[token]}@{place}"),)
        return f"shift {self.names[token]}", now._replace(
            stack=stack, rest=now.rest[1:], counter=max(now.counter - 1, 0))

    def at_error(self, token):
        """The step at a token that can not come."""
        now = self.now
        if now.counter < 3:
            errors = now.errors + (now.counter == 0)
            return "detect", now._replace(counter=3, errors=errors, mode="popping")
        if now.rest:
            return f"discard {self.names[token]}", now._replace(rest=now.rest[1:])
        return "fail", now._replace(mode="failed")

    def reduced(self, number):
        """The configuration after a reduction."""
        rule, stack = self.grammar.rules[number], self.now.stack
        below = len(stack) - len(rule.body)
        tree = " ".join([str(number), *(tree for _, tree in stack[below:])])
        return self.now._replace(stack=stack[:below] + ((rule.left, f"({tree})"),))

    def say(self, *lines):
        """Replies some lines."""
        self.lines += lines

    def add(self, words, configuration):
        """Makes a step, and says so."""
        self.history.append((words, configuration))
        self.say(f"{self.position} {words}")

    def run(self, count):
        """Makes some steps."""
        for made in range(count):
            step = self.next()
            if step is None:
                return self.say(*["halted"][made:])
            self.add(*step)

    def back(self, count):
        """Takes some steps back."""
        for made in range(count):
            if not self.position:
                return self.say(*["at start"][made:])
            words, _ = self.history.pop()
            self.say(f"{self.position} undo {words}")

    def to(self, position):
        """Goes to a position."""
        difference = position - self.position
        self.run(difference) if difference > 0 else self.back(-difference)

    def show(self):
        """Shows the position."""
        now = self.now
        self.say(f"{self.position} {now.mode}")
        for head, symbols in ("stack:", now.stack), ("rest:", now.rest):
            self.say(" ".join([head, *(self.names[symbol] for symbol, _ in symbols)]))
        self.say(f"counter: {now.counter}", f"errors: {now.errors}")

    def tree(self):
        """Shows the trees."""
        self.say(*(tree for _, tree in self.now.stack))

    def form(self, later):
        """A form: the stack, and what was shifted later."""
        symbols = [symbol for symbol, _ in self.now.stack] + later
        return " ".join(self.names[symbol] for symbol in symbols)

    def unwind(self):
        """Unwinds an accepted parse."""
        if self.now.mode != "accepted":
            return self.say("not accepted")
        if any(words.startswith(ERROR_STEPS) for words, _ in self.history):
            return self.say("had error")
        later = []
        self.say(self.form(later))
        while self.position:
            words, made = self.history.pop()
            if words.startswith("shift "):
                later.insert(0, made.stack[-1][0])
            if words.startswith("reduce "):
                self.say(self.form(later))

    def insert(self, name):
        """Inserts a token."""
        inputs = self.names[2 : self.grammar.tokens]
        if name not in inputs:
            return self.say("bad token")
        token = 2 + inputs.index(name)
        self.edit(f"insert {name}", self.now._replace(rest=((token, 0),) + self.now.rest))

    def drop(self):
        """Drops a token."""
        if self.now.mode not in MODES_AT_END and not self.now.rest:
            return self.say("no token")
        name = self.names[self.now.rest[0][0]] if self.now.rest else ""
        self.edit(f"drop {name}", self.now._replace(rest=self.now.rest[1:]))

    def edit(self, words, configuration):
        """Makes an edit."""
        if self.now.mode in MODES_AT_END:
            return self.say("halted")
        self.add(words, configuration)

    def answer(self, line):
        """Answers a command line."""
        counted = COMMAND.fullmatch(line)
        bare = {"show": self.show, "tree": self.tree, "unwind": self.unwind, "drop": self.drop}
        if line == "step":
            self.run(1)
        elif line in bare:
            bare[line]()
        elif line.startswith("insert "):
            self.insert(line.removeprefix("insert "))
        elif counted and (counted[1] == "to" or int(counted[2])) and int(counted[2]) <= 1_000_000:
            {"run": self.run, "back": self.back, "to": self.to}[counted[1]](int(counted[2]))
        else:
            self.say("unknown command")


def replies_of(tables, tokens, commands):
    """All that is replied to some command lines."""
    session = Session(tables, tokens)
    for line in commands:
        session.answer(line)
    return "".join(f"{line}\n" for line in session.lines)
