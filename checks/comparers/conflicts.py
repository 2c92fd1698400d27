"""Compares what `ydebug conflicts` says with all canonical LR(1) item sets, on random grammars.

    conflicts [ydebug=PATH] [--seconds N] [--turns N] [--seed N]

Each list of tokens must be as short as the shortest way to a canonical set that has both rivals;
where the program says that there is none, there must be none; what it says of a parse over the
tokens must be what the tables do; the items from which a token comes must be a shortest chain by the
sets; and the rules that it says are never reduced must be those. The first difference ends the
run. The last line is `N passed, M failed`: grammars.
"""
import heapq
import random
import re
import tempfile
from copy import copy
from functools import partial
from operator import mul
from pathlib import Path

from checks.comparers.beside import wrong_beside
from checks.comparers.causes import wrong_trials
from checks.comparers.chains import wrong_chains
from checks.shared.arguments import asked
from checks.shared.grammars import ERROR, productive
from checks.shared.running import ran, turns
from checks.shared.spelling import WARNED
from checks.shared.tables import Canonical, Tables, core_of, merged
from checks.shared.tally import Tally

FAR = 10_000


def shortest_of(grammar):
    """The length of the shortest sentence of each symbol, `error` counted as 10,000."""
    length = {at: 1 for at in range(grammar.tokens)} | {ERROR: FAR}
    before = None
    while before != (before := dict(length)):
        for rule in grammar.rules:
            if all(it in length for it in rule.body):
                new = sum(length[it] for it in rule.body)
                length[rule.left] = min(new, length.get(rule.left, new))
    return length


class Checked:
    """A grammar with its canonical sets and their distances from the start."""

    def __init__(self, grammar):
        self.grammar, self.canonical = grammar, Canonical(grammar)
        order, self.items, self.gotos = merged(self.canonical)
        self.number = {core: at for at, core in enumerate(order)}
        self.order, self.tables = order, Tables(grammar)
        self.cells = {(state, token): cell for state, token, *cell in self.conflicts()}
        length = shortest_of(grammar)
        after = {}
        for (items, symbol), to in self.canonical.gotos.items():
            after.setdefault(items, []).append((length[symbol], to))
        self.distance, heap, count = {}, [(0, 0, self.canonical.start)], 0
        while heap:
            far, _, items = heapq.heappop(heap)
            if items in self.distance:
                continue
            self.distance[items] = far
            for step, to in after.get(items, []):
                count += 1
                heapq.heappush(heap, (far + step, count, to))

    def complete(self, items, token):
        """The rules that can be reduced before a token."""
        bodies = [len(rule.body) for rule in self.grammar.rules]
        return {rule for rule, dot, look in items if look == token and dot == bodies[rule]} - {0}

    def shortest(self, state, token, rules):
        """The length of the shortest way on which all these rules can be reduced, or none."""
        found = [
            self.distance[items]
            for items in self.canonical.sets
            if self.number[core_of(items)] == state and rules <= self.complete(items, token)
        ]
        return min(found, default=None)

    def reaches(self, tokens, token, state):
        """Whether a parse over the tokens comes to the state with the token ahead."""
        stack, taken = [0], 0
        for _ in range(100_000):
            if taken == len(tokens) and stack[-1] == state:
                return True
            ahead = tokens[taken] if taken < len(tokens) else token
            action = self.tables.action(stack[-1], ahead)
            if action is None or action[0] == "acc" or (action[0] == "s" and taken == len(tokens)):
                return False
            if action[0] == "s":
                stack.append(action[1])
                taken += 1
            else:
                rule = self.grammar.rules[action[1]]
                del stack[len(stack) - len(rule.body) :]
                stack.append(self.gotos[stack[-1], rule.left])
        return False

    def lost(self):
        """The rules of symbols that can be reached which no cell reduces."""
        rules, found = self.grammar.rules, set(self.grammar.rules[0].body)
        for _ in rules:
            found |= {it for rule in rules if rule.left in found for it in rule.body}
        done = set(self.tables.defaults.values())
        done |= {it[1] for row in self.tables.cells for it in row.values() if it[0] == "r"}
        live = {at for at, rule in enumerate(rules) if at and rule.left in found}
        return live - done

    def conflicts(self):
        """The cells with a conflict: whether the shift is taken, and the rules that don't lose."""
        for state, core in enumerate(self.order):
            before = self.tables.before(core)
            for token in range(self.grammar.tokens):
                rules = self.complete(self.items[core], token)
                shifts = token in before
                ranks = {it: self.tables.rank(it, token) if shifts else "rest" for it in rules}
                left = sorted(it for it in rules if ranks[it] != "lose")
                if "ban" in ranks.values():
                    continue
                taken = shifts and "beat" not in ranks.values()
                if (taken and left) or (not taken and len(left) > 1):
                    yield state, token, taken, left


COUNTS = re.compile(r"grammar\.y: (\d+) shift/reduce, (\d+) reduce/reduce, in ")
UNSOUGHT = re.compile(r"(?m)^(\d+) groups? more; the search for ")
UNSOUGHT_CELL = re.compile(r"(?m)^state (\d+) on (\S+): (?:shift|accept|reduce)")
HEAD = re.compile(WARNED + r"conflict \d+: state (\d+) on (\S+): (shift|accept|reduce)")


def parts_of(text):
    """The conflicts that were told, each as its lines."""
    found = []
    for line in text.splitlines():
        if HEAD.match(line):
            found.append([line])
        elif re.match(WARNED, line) or not line:
            found.append([])
        elif found:
            found[-1].append(line)
    return [it for it in found if it and HEAD.match(it[0])]


# What is said where not each rule has a list, since that would take too many steps.
GIVEN_UP = "  The search for a list of tokens took too long."
# What is said of a parse that comes to the state by a recovery alone.
AFTER_ERROR = " only after an error, "
# How the lines begin after which further tokens of a block stand.
OTHERS = "  The same on ", "  Also on "


class Told:
    """A list of tokens that was told: the rules that it is for, whether for them alone, its tokens,
    what was said of a parse over it, and the other list, where there is one."""

    def __init__(self, rules, alone, lines, names):
        self.rules, self.alone = rules, alone
        self.tokens, self.last = tokens_in(lines[0], names)
        self.said = lines[1]
        self.other = None
        if len(lines) > 3 and lines[2].startswith("  Over these"):
            self.other, _ = tokens_in(lines[3], names)

    def for_rule(self, rule):
        """The same list, for one rule."""
        made = copy(self)
        made.rules = [rule]
        return made


def tokens_in(line, names):
    """The tokens of a line, and the one that follows them."""
    words = line.split()[1:]
    at = len(words) - 2
    return [names.index(it) for it in words[:at]], names.index(words[-1])


def lists_in(part, names):
    """The lists that were told of one conflict."""
    found, rules, alone = [], [], False
    for at, line in enumerate(part):
        if line.startswith("  for rule "):
            rules = [int(it) for it in re.findall(r"rule (\d+)", line)]
            alone = line.endswith((" alone:", ", without what is taken:"))
        if line.startswith("  tokens ") and not part[at - 1].startswith("  Over these"):
            found.append(Told(rules, alone, part[at : at + 4], names))
    return found


def others_in(part, names):
    """The further tokens of a block: those on the lines after each that says so."""
    tokens, is_list = [], False
    for line in part:
        is_list = line.startswith(OTHERS) or (is_list and line.startswith("    "))
        if is_list and not line.startswith(OTHERS):
            tokens += [names.index(it) for it in line.split()]
    return tokens


def states_in(part):
    """In how many states the conflicts of a block are."""
    found = re.search(r"(?m)^  The same in (\d+) states", "\n".join(part))
    return int(found[1]) if found else 1


def difference(checked, part):
    """What is wrong with what was told of one block."""
    names = checked.grammar.names
    head = HEAD.match(part[0])
    state, token = int(head[1]), names.index(head[2])
    taken, left = checked.cells[state, token]
    for other in others_in(part, names):
        if checked.cells.get((state, other)) != [taken, left]:
            return f"other rivals on {names[other]}"
    if taken != (head[3] != "reduce"):
        return "what is taken"
    first, others = (set(), left) if taken else ({left[0]}, left[1:])
    lists = lists_in(part, names)
    told = {rule for it in lists for rule in (it.rules or others)}
    wanted = set(others[:10])
    if told - first != wanted and not (GIVEN_UP in part and told - first < wanted):
        return "not each rule has a list"
    wrong = wrong_chains(checked, part, state, token)
    if wrong:
        return wrong
    wrong_of = partial(wrong_list, checked, state=state, token=token, first=first, others=others)
    if GIVEN_UP in part:
        return wrong_of_some(wrong_of, lists, others)
    return next(filter(None, map(wrong_of, lists)), None)


def wrong_of_some(wrong_of, lists, others):
    """What is wrong with lists of which each need be right for one rule alone, since the search for
    those of others was given up."""
    for told in lists:
        each = [wrong_of(told.for_rule(rule)) for rule in told.rules or others]
        if all(each):
            return each[0]
    return None


def wrong_list(checked, told, *, state, token, first, others):
    """What is wrong with one list."""
    if told.last != token:
        return "the token"
    for rule in told.rules or others:
        if told.alone and any(
            checked.shortest(state, token, {rule, it}) is not None
            for it in (first - {rule} if rule not in first else [])
        ):
            return "a list allows both"
        wanted = checked.shortest(state, token, {rule} if told.alone else first | {rule})
        made = sum(FAR if it == ERROR else 1 for it in told.tokens)
        if made != wanted:
            return f"length {made} for {wanted}"
    if ERROR in told.tokens or token == ERROR:
        return None if "Not tried" in told.said else "error is tried"
    reached = checked.reaches(told.tokens, token, state)
    is_said = told.said.startswith(("  A parse comes to", "  A parse begins in"))
    if reached != (is_said and AFTER_ERROR not in told.said):
        return "the trial"
    if told.other is not None and (reached or not checked.reaches(told.other, token, state)):
        return "the other list"
    return None


def wrong_counts(tables, text):
    """What is wrong with the counts of the first line; nothing where the tables have them."""
    found = COUNTS.match(text)
    told = tuple(map(int, found.groups())) if found else (0, 0)
    ours = tables.shift_reduce, tables.reduce_reduce
    is_told = bool(found) or text.startswith("grammar.y: no conflicts\n")
    return None if told == ours and is_told else f"{ours} conflicts, told {told}"


def wrong_kinds(checked, parts, text):
    """What is wrong with the cells and kinds of the first line, and with kinds that aren't sought;
    of these the other states aren't told."""
    names, unsought = checked.grammar.names, UNSOUGHT.search(text)
    cells = [(int(state), names.index(token)) for state, token in UNSOUGHT_CELL.findall(text)]
    counts = re.search(r"in (\d+) table entr(?:y|ies) of (\d+) groups?", text)
    told = [int(it) for it in counts.groups()] if counts else [0, 0]
    sizes = [1 + len(others_in(part, names)) for part in parts]
    listed = sum(map(mul, sizes, map(states_in, parts))) + len(cells)
    fits = listed <= told[0] if cells else listed == told[0]
    # where all are sought, groups are the parts
    groups = told[1] == len(parts) if not cells else told[1] <= sum(sizes) + len(cells)
    if told[0] != len(checked.cells) or not groups or not fits:
        return f"{len(checked.cells)} cells, {sizes} kinds, {len(cells)} unsought, told {told}"
    if len(cells) != (int(unsought[1]) if unsought else 0) or set(cells) - checked.cells.keys():
        return f"unsought {cells}"
    return None


def differences(grammar, text):
    """What is wrong with what was told of a grammar."""
    checked, parts = Checked(grammar), parts_of(text)
    for part in parts:
        wrong = difference(checked, part)
        if wrong:
            return f"{wrong}:\n" + "\n".join(part)
    lost = {int(it) for it in re.findall(r"rule (\d+) is useless in the parser", text)}
    if lost != checked.lost():
        return f"rules never reduced: {sorted(lost)} for {sorted(checked.lost())}"
    return (
        wrong_counts(checked.tables, text)
        or wrong_trials(checked, text)
        or wrong_kinds(checked, parts, text)
        or wrong_beside(checked, parts)
    )


# What is counted, so that a run shows that each of it was met.
COUNTED = {
    "blocks": (": warning: conflict ",),
    "with further tokens": OTHERS,
    "in several states": ("  The same in",),
    "lists": ("\n  tokens ",),
    "without what is taken": (" alone:", "without what is taken:"),
    "chains": (" from:\n    state ",),
    "changes that settle some": (" conflicts go when ", " conflicts goes when ", " more when "),
    "rules that others cover": (" without rule ",),
    "copies that split states": ("  With a copy of ",),
    "hints that settle others": (", that also settles conflict",),
    "kernel items of shifts": (" can begin what comes next in:\n",),
    "pairs of rules": (" conflicts stand between ", " conflicts stands between "),
    "with error": ("  Not tried",),
    "missed by a parse": ("settled otherwise", "given up"),
    "of these after an error": (AFTER_ERROR,),
    "of these with another list": ("  Over these",),
    "useless rules": ("is useless in the parser",),
}


def compared(ydebug, room, rng, counts):
    """What is wrong with what is said of one grammar; nothing where all is well."""
    grammar = productive(rng)
    (Path(room) / "grammar.y").write_text(grammar.text)
    made = ran([ydebug, "conflicts", "--all", "grammar.y"], room)
    for it, words in COUNTED.items():
        counts[it] += sum(map(made.stdout.count, words))
    wrong = differences(grammar, made.stdout)
    return [f"{grammar.text}{wrong}\n{made.stderr}"] if wrong or made.returncode else []


def main(words):
    """Compares reports on conflicts for some seconds."""
    given = asked(__doc__, words, ("ydebug",), seconds=60.0, turns=0, seed="1")
    rng, counts, tally = random.Random(given.seed), dict.fromkeys(COUNTED, 0), Tally()
    with tempfile.TemporaryDirectory() as room:
        for turn in turns(given):
            tally.take(f"grammar {turn}", compared(given.programs["ydebug"], room, rng, counts))
            if tally.failed:
                break
    print(", ".join(f"{number} {it}" for it, number in counts.items()))
    return tally.end()
