"""Compares what `ydebug errors` says with a plain search over all stacks, on random grammars.

    errors [ydebug=PATH] [ystep=PATH] [--seconds N] [--turns N] [--seed N]

Each list of tokens must be an error at its last token and in the state that is told, with the stack
and the tokens that could come, by the machine in Python; one of each grammar is also put into a
session. It must be as short as the first list that a search over all stacks, the shortest lists
first, comes to, and end in the token that ends the fewest lists of the states before; no state that
this search finds may be without a list. States at which the same tokens could come must have one
block, with `--states` one each. Wrong inputs at random must be detected in states with a list. A
file of messages that is made so must be taken as complete, and must stay as it is when it is
written anew. The first difference ends the run. The last line is `N passed, M failed`: grammars.
"""
import random
import re
import tempfile
from collections import Counter
from pathlib import Path

from checks.shared.arguments import asked
from checks.shared.grammars import END, ERROR, productive
from checks.shared.running import ran, turns
from checks.shared.spelling import names_of
from checks.shared.tables import Tables
from checks.shared.tally import Tally

BLOCK = re.compile(r"(?m)^(?!#)(.+)\n## state (\d+)\n((?:##.*\n)*)")
MESSAGE = re.compile(r"(?m)^unexpected \$0, expected \$expected$")
WANTED = re.compile(r"(?m)^## (?:expected|unknown ).*\n")
TAIL = re.compile(r"(?m)^## (no error, since [^:]*|not found [^:]*|inputs of [^:]*):(.*)$")
HEAD = re.compile(r"## .*: an error can be detected in (\d+) of (\d+) states\.\n")
# What a message calls an entry of the stack.
ENTRY = re.compile(r"(?<![^ ])\$(\d+)=")
# A parse that makes so many reductions in a row counts as one without an end.
MOST_REDUCTIONS = 300
# The search over stacks ends where it has more, or comes to longer lists.
MOST_STACKS, MOST_LENGTH = 4_000, 8


class Machine:
    """A parse by tables, as a stack of states without the first one."""

    def __init__(self, tables):
        self.tables, self.grammar = tables, tables.grammar
        self.symbols = {to: symbol for (_, symbol), to in tables.gotos.items()}

    def move(self, stack, token):
        """What comes of a token: `s`, `acc`, `error` or `limit`, and the stack after it."""
        for _ in range(MOST_REDUCTIONS):
            action = self.tables.action(stack[-1] if stack else 0, token)
            if action is None:
                return "error", stack
            if action[0] == "acc":
                return "acc", stack
            if action[0] == "s":
                return "s", (*stack, action[1])
            rule = self.grammar.rules[action[1]]
            stack = stack[: len(stack) - len(rule.body)]
            stack = (*stack, self.tables.gotos[stack[-1] if stack else 0, rule.left])
        return "limit", stack

    def detect(self, tokens):
        """Where the first error of some tokens is detected: how many are taken before, and the
        stack; none where there is no error, or a parse without an end."""
        stack = ()
        for taken, token in enumerate(tokens):
            kind, after = self.move(stack, token)
            if kind != "s":
                return (taken, after, stack) if kind == "error" else None
            stack = after
        return None

    def inputs(self):
        """All tokens that an input can have, and the end."""
        return [END, *range(ERROR + 1, self.grammar.tokens)]

    def wanted(self, stack):
        """The tokens that can come."""
        return [it for it in self.inputs() if self.move(stack, it)[0] in ("s", "acc")]


def shortest(machine):
    """For each state the length of a shortest list whose last token it detects, with all such last
    tokens, up to a length up to which all lists were tried; and that length."""
    found, seen, stacks = {}, {()}, [()]
    for length in range(1, MOST_LENGTH + 1):
        after = []
        for stack in stacks:
            for token in machine.inputs():
                kind, to = machine.move(stack, token)
                if kind == "error":
                    least, last = found.setdefault(to[-1] if to else 0, (length, set()))
                    if least == length:
                        last.add(token)
                if kind == "s" and to not in seen:
                    seen.add(to)
                    after.append(to)
        stacks = after
        if len(seen) > MOST_STACKS or not stacks:
            break
    return found, length if stacks else float("inf")


class Told:
    """What was told of a grammar: its lists, and the states without one by what is said of them."""

    def __init__(self, text, names):
        text = re.sub(r"\n##  {8,}", " ", text)
        self.head = [int(it) for it in HEAD.match(text).groups()]
        self.lists, self.states, self.blocks = {}, [], []
        for block in MESSAGE.split(text):
            found, wanted = BLOCK.findall(block), ""
            for words, state, comments in found:
                tokens = [names.index(it) for it in names_of(words.encode())]
                # below an input stand the tokens that could come, unless it is as the one before
                wanted = "".join(WANTED.findall(comments)) or wanted
                self.lists[int(state)] = tokens, WANTED.sub("", comments) + wanted
            self.states += [int(state) for _, state, _ in found]
            self.blocks += [[int(state) for _, state, _ in found]] if found else []
        self.without = {}
        for reason, numbers in TAIL.findall(text):
            self.without |= {int(it): reason for it in numbers.split()}
            self.states += map(int, numbers.split())

    def listed(self, state, title, names):
        """The symbols that are listed after a title in the comments of a list, and the numbers
        before those that have some."""
        found = re.search(rf"(?m)^## {title} +(.*)$", self.lists[state][1])
        words = found[1] if found and found[1] != "(nothing)" else ""
        symbols = [names.index(it) for it in names_of(ENTRY.sub("", words).encode())]
        return symbols, [int(it) for it in ENTRY.findall(words)]


def wrong_list(machine, told, state):
    """What is wrong with the list of a state."""
    tokens, _ = told.lists[state]
    names = machine.grammar.names
    found = machine.detect(tokens)
    if found is None or found[0] != len(tokens) - 1:
        return f"state {state}: its last token is no error"
    _, stack, before = found
    if (stack[-1] if stack else 0) != state:
        return f"state {state}: the error is detected in another state"
    numbers = list(range(len(stack), 0, -1))
    if told.listed(state, "stack", names) != ([machine.symbols[it] for it in stack], numbers):
        return f"state {state}: the stack"
    if sorted(told.listed(state, "expected", names)[0]) != machine.wanted(before):
        return f"state {state}: what could come"
    return None


def wrong_states(machine, told):
    """What is wrong with which states have a list, and with the lengths of lists."""
    states = machine.tables.states
    if sorted(told.states) != list(states):
        return "not each state is told once"
    if told.head != [len(told.lists), len(states)]:
        return "the counts"
    (found, tried), uses = shortest(machine), Counter()
    for state in states:
        ours, (theirs, _) = found.get(state), told.lists.get(state, ([], ""))
        length, last = ours or (None, ())
        if theirs and ours is None and len(theirs) <= tried or ours and len(theirs) != length:
            return f"state {state}: {theirs} for a length of {length}"
        if ours and theirs[-1] != min(last, key=lambda it: (uses[it], it == END, it)):
            return f"state {state}: {theirs} for a last token of {last}"
        uses.update(theirs[-1:])
    return None


def wrong_blocks(machine, told, alone):
    """What is wrong with which states stand in one block: those at which the same tokens could
    come, or each by itself."""
    if alone:
        return None if all(len(it) == 1 for it in told.blocks) else "a block of several states"
    names, seen = machine.grammar.names, set()
    for block in told.blocks:
        wanted = {
            tuple(tuple(told.listed(state, title, names)[0]) for title in ("expected", "unknown"))
            for state in block
        }
        if len(wanted) != 1 or wanted & seen:
            return f"the block of {block}"
        seen |= wanted
    return None


def wrong_reason(machine, told):
    """What is wrong with why states have no list, as far as it is read off the tables."""
    tables = machine.tables
    for state, reason in told.without.items():
        is_full = all(tables.action(state, it) for it in machine.inputs())
        if ("by one rule" in reason) != (state in tables.defaults):
            return f"state {state}: it reduces always"
        if ("each token" in reason) != (is_full and state not in tables.defaults):
            return f"state {state}: each token has an action"
    return None


def wrong_random(machine, told, rng):
    """An error of a random input that is detected in a state without a list."""
    inputs = machine.inputs()[1:]
    for _ in range(100 if inputs else 0):
        tokens = [rng.choice(inputs) for _ in range(rng.randint(0, 9))]
        found = machine.detect([*tokens, END])
        state = found and (found[1][-1] if found[1] else 0)
        if found and state not in told.lists:
            return f"state {state}: it has no list"
    return None


def differences(grammar, text, rng, alone=False):
    """What is wrong with what was told of a grammar, each state in a block of its own or not."""
    machine, told = Machine(Tables(grammar)), Told(text, grammar.names)
    wrong = [wrong_states(machine, told), wrong_reason(machine, told)]
    wrong += [wrong_blocks(machine, told, alone)]
    wrong += [wrong_list(machine, told, state) for state in told.lists]
    wrong += [wrong_random(machine, told, rng)]
    return next(filter(None, wrong), None)


def wrong_session(ystep, room, grammar, tokens):
    """What is wrong with a list in a session: it must detect an error once all others are
    shifted."""
    shifted = [it for it in tokens if it != END]
    (room / "tokens").write_text(" ".join(grammar.names[it] for it in shifted))
    replies = ran([ystep, "grammar.y", "tokens"], room, "run 100000\n").stdout.splitlines()
    kinds = [line.split(" ")[1] for line in replies]
    before = kinds[: kinds.index("detect")] if "detect" in kinds else []
    if "detect" not in kinds or before.count("shift") != len(tokens) - 1:
        return "a session detects the error elsewhere"
    return None


def wrong_file(ydebug, room, text):
    """What is wrong with the list as a file of messages."""
    (room / "messages").write_text(text)
    words = [ydebug, "errors", "grammar.y", "--messages", "messages"]
    made = ran([*words, "--complete"], room)
    if made.returncode or not made.stdout.endswith(", complete\n"):
        return f"the file is not complete:\n{made.stdout}{made.stderr}"
    if ran([*words, "--update"], room).returncode or (room / "messages").read_text() != text:
        return "an update changes the file"
    return None


def wrong_of(room, programs, rng, counts):
    """What is wrong with what is said of a grammar that is drawn, and the grammar."""
    ydebug, ystep = programs
    grammar = productive(rng)
    (room / "grammar.y").write_text(grammar.text)
    alone = rng.random() < 0.2
    made = ran([ydebug, "errors", "grammar.y", *["--states"] * alone], room)
    wrong = "a status" if made.returncode else differences(grammar, made.stdout, rng, alone)
    told = Told(made.stdout, grammar.names) if not wrong else None
    if told:
        counts.update(told.without.values(), lists=len(told.lists))
        lists = [tokens for tokens, _ in told.lists.values()]
        wrong = wrong_file(ydebug, room, made.stdout)
        if lists and not wrong:
            wrong = wrong_session(ystep, room, grammar, rng.choice(lists))
    return wrong, grammar, made.stdout


def compared(programs, room, given):
    """Compares as long as is wanted, up to the first difference."""
    rng, tally, counts = random.Random(given.seed), Tally(), Counter()
    for turn in turns(given):
        wrong, grammar, text = wrong_of(room, programs, rng, counts)
        told = [f"{wrong}\n{grammar.text}{text}"] if wrong else []
        tally.take(f"grammar {turn}", told)
        if wrong:
            break
    return tally, counts


def main(words):
    """Compares as long as is wanted."""
    given = asked(__doc__, words, ("ydebug", "ystep"), seconds=60, turns=0, seed=1)
    programs = [given.programs[it] for it in ("ydebug", "ystep")]
    with tempfile.TemporaryDirectory() as room:
        tally, counts = compared(programs, Path(room), given)
    for what, count in sorted(counts.items()):
        print(f"{count} {what}")
    return tally.end()
