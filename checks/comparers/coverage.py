"""Compares `ydebug sentences` and `ydebug cover` with machines in Python, on random grammars.

    coverage [ydebug=PATH] [--seconds N] [--turns N] [--seed N]

Each sentence must be derived by the grammar, as Earley's algorithm says, and accepted by tables of
canonical LR(1) sets that are joined; what it is the first to use, what none uses and the counts
must be those of its steps there, and each sentence must use something that no other does. What is
said of lists that are near to sentences, and of sentences drawn at random, must be what the tables
say. Where no cell has a choice, all must be found that needs no `error`; elsewhere, what is said
not to be possible must not be met by a search over stacks. Of all these lists `cover` must say what
they use. The first difference ends the run. The last line is `N passed, M failed`: grammars.
"""
import random
import re
import tempfile
from collections import Counter
from pathlib import Path

from checks.comparers.conflicts import Checked
from checks.shared.arguments import asked
from checks.shared.earley import derives
from checks.shared.grammars import END, ERROR, productive
from checks.shared.running import ran, turns
from checks.shared.sentences import reached
from checks.shared.tally import Tally

KINDS = {"rules": "rules", "states": "states", "actions": "actions"}
MOST_STEPS, MOST_STACKS, MOST_TOKENS, MOST_NAMED = 20_000, 2_000, 7, 20


class Uses:
    """The rules, states and filled cells that steps use."""

    def __init__(self):
        self.rules, self.states, self.cells = set(), {0}, set()

    def of(self, kind):
        """The parts of a kind."""
        return {"rules": self.rules, "states": self.states, "actions": self.cells}[kind]

    def add(self, other):
        """Adds what others use."""
        for kind in KINDS.values():
            self.of(kind).update(other.of(kind))


class Machine:
    """A parser by the tables of a grammar."""

    def __init__(self, grammar):
        self.grammar, self.checked = grammar, Checked(grammar)
        self.tables = self.checked.tables

    def cell(self, state, token):
        """A cell as its state and its token, -1 where the state has a default rule."""
        return state, -1 if state in self.tables.defaults else token

    def all(self, kind):
        """All parts of a kind, in their order."""
        if kind == "rules":
            return list(range(1, len(self.grammar.rules)))
        if kind == "states":
            return list(self.tables.states)
        rows = ((state, self.tables.cells[state]) for state in self.tables.states)
        cells = ((state, it) for state, row in rows for it in row if self.is_used(state, it))
        return sorted({self.cell(*it) for it in cells})

    def is_used(self, state, token):
        """Whether a parse can look up a cell: `error` is never ahead, and is only shifted."""
        action = self.tables.action(state, token)
        return token != ERROR or state in self.tables.defaults or action[0] == "s"

    def turn(self, stack, token, uses):
        """Makes the step of a parse that runs, and says which; none at an error."""
        action = self.tables.action(stack[-1], token)
        if action is None:
            return None
        uses.cells.add(self.cell(stack[-1], token))
        if action[0] == "s":
            stack.append(action[1])
        if action[0] == "r":
            rule = self.grammar.rules[action[1]]
            uses.rules.add(action[1])
            del stack[len(stack) - len(rule.body) :]
            stack.append(self.tables.gotos[stack[-1], rule.left])
        uses.states.add(stack[-1])
        return action[0]

    def shift_error(self, stack, uses):
        """Pops states until `error` is shifted, and says whether it is."""
        while stack:
            action = self.tables.action(stack[-1], ERROR)
            if action and action[0] == "s":
                uses.cells.add((stack[-1], ERROR))
                uses.states.add(action[1])
                stack.append(action[1])
                return True
            stack.pop()
        return False

    def walk(self, tokens):
        """What a parse comes to without recovery, and what it uses with it: `accepted` and the
        steps, `rejected` and the number of a token, or `late`."""
        uses, stack, at, counter, verdict = Uses(), [0], 0, 0, None
        for steps in range(1, MOST_STEPS):
            token = tokens[at] if at < len(tokens) else END
            step = self.turn(stack, token, uses)
            if step == "acc":
                return verdict or ("accepted", steps), uses
            if step == "s":
                at, counter = at + 1, max(counter - 1, 0)
            if step is None and counter < 3:
                verdict, counter = verdict or ("rejected", at + 1), 3
                if not self.shift_error(stack, uses):
                    return verdict, uses
            elif step is None and at < len(tokens):
                at += 1
            elif step is None:
                return verdict, uses
        return verdict or ("late", 0), uses

    def found(self):
        """What sentences use that a search over stacks meets, the shortest first."""
        found, waiting, met = Uses(), [((0,), Uses(), 0)], 0
        found.states.clear()
        while waiting and met < MOST_STACKS:
            stack, uses, count = waiting.pop(0)
            met += 1
            for token in [END, *range(2, self.grammar.tokens)]:
                above, more = list(stack), Uses()
                more.add(uses)
                for _ in range(50):
                    step = self.turn(above, token, more)
                    if step != "r":
                        break
                if step == "acc":
                    found.add(more)
                elif step == "s" and count < MOST_TOKENS:
                    waiting.append((tuple(above), more, count + 1))
        return found

    def has_choice(self):
        """Whether a cell has two candidates."""
        checked = self.checked
        for core in checked.order:
            before = self.tables.before(core)
            for token in range(self.grammar.tokens):
                rules = checked.complete(checked.items[core], token)
                if len(rules) + (token in before) > 1:
                    return True
        return False

    def is_endless(self):
        """Whether a parse may go on without an end: where a nonterminal derives itself alone, or
        begins with itself behind something that vanishes."""
        nullable, alone, first, hidden = self.checked.canonical.nullable, {}, {}, []
        for left, body in ((rule.left, rule.body) for rule in self.grammar.rules[1:]):
            for at, symbol in enumerate(body):
                if nullable.issuperset(body[:at]):
                    first.setdefault(left, set()).add(symbol)
                    hidden += [(left, symbol)] if at else []
                if nullable.issuperset(body[:at] + body[at + 1 :]):
                    alone.setdefault(left, set()).add(symbol)
        alone, first = reached(alone), reached(first)
        loops = any(left in found for left, found in alone.items())
        return loops or any(left in first.get(it, ()) for left, it in hidden)

    def names(self, tokens):
        """Tokens as they are written."""
        return " ".join(self.grammar.names[it] for it in tokens)

    def short(self, kind, part):
        """A part in a list."""
        if kind != "actions":
            return str(part)
        state, token = part
        return f"{state} on {self.grammar.names[token] if token >= 0 else 'every token'}"


class Said:
    """What `ydebug sentences` wrote: each list with the line before it, and the other lines."""

    def __init__(self, machine, text):
        names, self.lists, self.rest, before = machine.grammar.names, [], [], None
        for line in text.splitlines():
            if not line.startswith("# "):
                self.lists.append((before, [names.index(it) for it in words_in(line)]))
                before = None
            elif before is not None:
                self.rest.append(before)
                before = line
            else:
                before = line
        self.rest += [before] if before else []

    def without_near(self):
        """The sentences alone."""
        return [it for it in self.lists if it[0].startswith(("# sentence", "# random"))]


def words_in(line):
    """The names in a line of tokens: literals may have a blank."""
    return re.findall(r"'(?:\\.|[^\\'])+'|[^\s']+", line)


def counted(count, word):
    """A number with its word."""
    return f"{count} {word if count != 1 else word[:-1]}"


def heading(machine, kind, number, new):
    """The line before a sentence."""
    new = sorted(new)
    word = kind if len(new) != 1 else kind[:-1]
    listed = ", ".join(machine.short(kind, it) for it in new[:MOST_NAMED])
    more = f", and {len(new) - MOST_NAMED} more" if len(new) > MOST_NAMED else ""
    return f"# sentence {number}, the first to use {word} {listed}{more}"


def wrong_sentences(machine, kind, lists):
    """What is wrong with the sentences and with what they are the first to use."""
    used = []
    for number, (before, tokens) in enumerate(lists, 1):
        verdict, uses = machine.walk(tokens)
        if verdict[0] != "accepted" or not derives(machine.grammar, tokens):
            return f"no sentence: {machine.names(tokens)}"
        new = uses.of(kind) - set().union(*used)
        if before != heading(machine, kind, number, new):
            return f"{heading(machine, kind, number, new)} for {before}"
        used.append(uses.of(kind))
    counts = Counter(it for uses in used for it in uses)
    spare = [at for at, uses in enumerate(used, 1) if all(counts[it] > 1 for it in uses)]
    lengths = [len(tokens) for _, tokens in lists]
    return f"sentences {spare} are spare" if spare or lengths != sorted(lengths) else None


PART = {
    "rules": r": rule (\d+)(?: \(line \d+\))?  ",
    "states": r": state (\d+)(?:  |$)",
    "actions": r": state (\d+) on (.*?): (?:shift|accept|reduce)",
}
WITH_ERROR = "# not found, as the shortest sentence has error, or more than 5000 tokens"
IMPOSSIBLE = (
    WITH_ERROR,
    "# not found, as its left side can't be reached",
    "# not found, as no state reduces by it",
)


def part_in(machine, kind, line):
    """The part that a line names."""
    found = re.search(PART[kind], line)
    if kind != "actions":
        return int(found[1])
    token = -1 if found[2] == "every token" else machine.grammar.names.index(found[2])
    return int(found[1]), token


def wrong_unused(machine, kind, used, lines):
    """What is wrong with the parts that no sentence uses."""
    told = {part_in(machine, kind, line): line for line in lines}
    wanted = [it for it in machine.all(kind) if it not in used]
    if list(told) != wanted:
        return f"not found: {wanted} for {list(told)}"
    met = machine.found().of(kind) & told.keys()
    lost, free = machine.checked.lost(), not machine.has_choice()
    for part, line in told.items():
        # the sentence that was made has `error`; another one may have none
        if part in met and line.startswith(IMPOSSIBLE[1:]):
            return f"a sentence uses it: {line}"
        if kind == "rules" and (part in lost) != line.startswith(IMPOSSIBLE[2]):
            return f"lost or not: {line}"
        if free and not line.startswith(IMPOSSIBLE):
            return f"no cell has a choice: {line}"
    return None


def wrong_near(machine, said):
    """What is wrong with the lists that are near to sentences."""
    last = []
    for before, tokens in said.lists:
        if before.startswith(("# sentence", "# random")):
            last = tokens
            continue
        change, _, verdict = before.partition(": ")
        if before != f"{change}: {verdict}" or not is_near(machine, change, last, tokens):
            return f"not near: {before}"
        if not verdict.startswith(verdict_on(machine, tokens)):
            return f"{verdict_on(machine, tokens)} for {before}"
    return None


def is_near(machine, change, tokens, made):
    """Whether a list is made of another by a change as it is told."""
    names = machine.grammar.names
    out = re.fullmatch(r"# token (\d+) left out", change)
    other = re.fullmatch(r"# token (\d+) changed to (.*)", change)
    put = re.fullmatch(r"# (.*) put in (?:before token (\d+)|at the end)", change)
    if out:
        at = int(out[1])
        return tokens[: at - 1] + tokens[at:] == made
    if other:
        at, token = int(other[1]), names.index(other[2])
        return tokens[: at - 1] + [token] + tokens[at:] == made and token != tokens[at - 1]
    at = int(put[2]) - 1 if put[2] else len(tokens)
    return tokens[:at] + [names.index(put[1])] + tokens[at:] == made


def verdict_on(machine, tokens):
    """How what is said of a list begins."""
    (word, number), _ = machine.walk(tokens)
    if word == "accepted":
        return f"accepted after {number} steps"
    if word == "late":
        return "undecided after 1,000,000 steps"
    token = tokens[number - 1] if number <= len(tokens) else END
    return f"rejected at token {number}: unexpected {machine.grammar.names[token]}"


def wrong_end(machine, kind, said, used):
    """What is wrong with the last line."""
    sentences, near = said.without_near(), len(said.lists) - len(said.without_near())
    count, all_parts = len(sentences), len(machine.all(kind))
    words = f"# {counted(count, 'sentences')} {'uses' if count == 1 else 'use'} "
    many = "all" if len(used) == all_parts else f"{len(used)} of"
    words += f"{many} {counted(all_parts, kind)}"
    accepted = sum(": accepted after" in it[0] for it in said.lists) if near else 0
    words += f"; {accepted} of {near} near ones are accepted" if near else ""
    return None if said.rest[-1] == words else f"{words} for {said.rest[-1]}"


def differences(machine, kind, text):
    """What is wrong with sentences for a kind."""
    said = Said(machine, text)
    sentences, used = said.without_near(), set()
    for _, tokens in sentences:
        used |= machine.walk(tokens)[1].of(kind)
    used &= set(machine.all(kind))
    return (
        wrong_sentences(machine, kind, sentences)
        or wrong_unused(machine, kind, used, said.rest[:-1])
        or wrong_near(machine, said)
        or wrong_end(machine, kind, said, used)
    )


REFUSED = ", one of the grammar that the tables refuse"


def wrong_random(machine, text, length):
    """What is wrong with sentences drawn at random."""
    said, least, accepted = Said(machine, text), least_of(machine.grammar), 0
    sentences = said.without_near()
    if said.rest[-1].startswith("# no sentence can be drawn"):
        return None if least >= 10_000 else "a sentence can be drawn"
    for number, (before, tokens) in enumerate(sentences, 1):
        verdict = verdict_on(machine, tokens)
        is_good = verdict.startswith("accepted")
        accepted += is_good
        words = f"# random sentence {number}{'' if is_good else REFUSED}: {verdict}"
        if not before.startswith(words):
            return f"{words} for {before}"
        if not derives(machine.grammar, tokens) or len(tokens) > max(length, least):
            return f"no sentence: {machine.names(tokens)}"
    end = f"# {accepted} of {len(sentences)} random sentences accepted"
    return wrong_near(machine, said) or (None if said.rest[-1].startswith(end) else end)


def least_of(grammar):
    """The length of the shortest sentence, `error` counted as 10,000."""
    length = {at: 1 for at in range(grammar.tokens)} | {ERROR: 10_000}
    before = None
    while before != (before := dict(length)):
        for rule in grammar.rules:
            if all(it in length for it in rule.body):
                new = sum(length[it] for it in rule.body)
                length[rule.left] = min(new, length.get(rule.left, new))
    return length[grammar.rules[0].left] - 1


def wrong_cover(machine, lists, text):
    """What is wrong with what is said that lists use."""
    uses = Uses()
    for tokens in lists:
        uses.add(machine.walk(tokens)[1])
    lines = text.splitlines()
    at = next(at for at, line in enumerate(lines) if line.startswith("rules "))
    counts = []
    for kind in KINDS.values():
        parts = machine.all(kind)
        counts.append(f"{kind} {len(uses.of(kind) & set(parts))} of {len(parts)}")
    if lines[at] != ", ".join(counts):
        return f"{', '.join(counts)} for {lines[at]}"
    rest = lines[at + 1 :]
    for kind in KINDS.values():
        wanted = [it for it in machine.all(kind) if it not in uses.of(kind)]
        told = [part_in(machine, kind, line[8:]) for line in rest[: len(wanted)]]
        if told != wanted or not all(it.startswith("not used: ") for it in rest[: len(wanted)]):
            return f"{kind} not used: {wanted} for {told}"
        rest = rest[len(wanted) :]
    return f"more lines: {rest}" if rest else None


def commands(rng, is_endless):
    """The words of `ydebug sentences` for each form, and what looks at what it writes. Where parses
    have no end, there are few of them, since each takes a while."""
    for word, kind in KINDS.items():
        near = ["--near"] if rng.random() < 0.5 and not is_endless else []
        yield ["--cover", word, *near], lambda it, text, kind=kind: differences(it, kind, text)
    length, seed = rng.choice([1, 5, 20, 60]), rng.randint(0, 10**9)
    length = min(length, 5) if is_endless else length
    count, near = ("1", []) if is_endless else ("10", ["--near"])
    words = ["--random", count, "--length", str(length), "--seed", str(seed), *near]
    yield words, lambda it, text: wrong_random(it, text, length)


def compared(ydebug, room, rng, counts):
    """What is wrong with what is said of one grammar; nothing where all is well."""
    grammar, lists = productive(rng), []
    machine = Machine(grammar)
    (Path(room) / "grammar.y").write_text(grammar.text)
    for words, look in commands(rng, machine.is_endless()):
        made = ran([ydebug, "sentences", "grammar.y", *words], room)
        wrong = look(machine, made.stdout) if made.stdout else "nothing is written"
        if wrong or made.returncode:
            return [f"{grammar.text}{words}: {wrong}\n{made.stderr}"]
        counts.update(counts_of(made.stdout))
        lists += [tokens for _, tokens in Said(machine, made.stdout).lists]
    lists = rng.sample(lists, min(len(lists), 1 if machine.is_endless() else 8)) or [[]]
    for at, tokens in enumerate(lists):
        (Path(room) / f"{at}").write_text(machine.names(tokens) + "\n")
    files = [str(at) for at in range(len(lists))]
    made = ran([ydebug, "cover", "grammar.y", *files, "--states", "--actions"], room)
    wrong = wrong_cover(machine, lists, made.stdout)
    return [f"{grammar.text}cover: {wrong}\n{made.stderr}"] if wrong or made.returncode else []


# What is counted, so that a run shows that each of it was met.
COUNTED = {
    "sentences": "# sentence ",
    "drawn": "# random sentence ",
    "of these refused": REFUSED,
    "near": (" left out: ", " changed to ", " put in "),
    "not found": "# not found",
    "of these tried": "# not found, as the parse ",
    "with error": WITH_ERROR,
}


def counts_of(text):
    """How often each was met in a text."""
    for name, words in COUNTED.items():
        words = words if isinstance(words, tuple) else (words,)
        yield from [name] * sum(text.count(it) for it in words)


def main(words):
    """Compares sentences for some seconds."""
    given = asked(__doc__, words, ("ydebug",), seconds=60.0, turns=0, seed="1")
    rng, counts, tally = random.Random(given.seed), Counter(), Tally()
    with tempfile.TemporaryDirectory() as room:
        for turn in turns(given):
            tally.take(f"grammar {turn}", compared(given.programs["ydebug"], room, rng, counts))
            if tally.failed:
                break
    print(", ".join(f"{counts[it]} {it}" for it in COUNTED))
    return tally.end()
