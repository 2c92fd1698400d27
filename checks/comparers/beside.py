"""What a report says beside the rivals of a conflict, tried: which other conflicts a hint settles, by
cells with the changed precedences, and which kernel items lead to a shift, by the items of the state."""
import re
from copy import copy

from checks.comparers.causes import changed
from checks.shared.spelling import WARNED

ALSO = re.compile(
    r"  In a line of %left after all others, what the first hint names also settles conflicts? (.*)\."
)
HEAD = re.compile(WARNED + r"conflict (\d+): state (\d+) on (\S+): ")
OTHERS = re.compile(r"  (The same|Also) on \d+ other tokens?, conflicts? (.*):")
BEGINS = re.compile(r"  (\S+) can begin what comes next in:")
ITEM = re.compile(r"    rule (\d+) (?:\(line \d+\) )? ?(.*)")
DOTS = ", .."
OWN = re.compile(
    r"  To choose, write %right LOW\w* above (%right|the line of) (\S+), "
    r"and %prec LOW at the end of rule (\d+): .*"
)
# What the other hints name: the tokens that get lines.
NAMED = [
    re.compile(r"  To (?:choose|reduce by rule \d+), name (\S+) and (\S+) on two lines .*"),
    re.compile(r"  To shift (\S+), name it and (\S+) on two lines .*"),
    re.compile(r"  To (?:choose|reduce by rule \d+), name (\S+) (?:on|in) a line\b.*"),
    re.compile(r"  To shift (\S+), name it (?:on|in) a line .*"),
]


def numbers_in(text):
    """The numbers of a list with ranges."""
    found = []
    for part in text.removesuffix(DOTS).split(", "):
        first, *last = map(int, part.split(" to "))
        found += range(first, (last or [first])[0] + 1)
    return found


def asked_by(line):
    """The tokens and the rules that a hint gives precedences to; nothing for no such hint."""
    if own := OWN.fullmatch(line):
        return [own[2]] if own[1] == "%right" else [], [int(own[3])]
    found = next(filter(None, (it.fullmatch(line) for it in NAMED)), None)
    return (list(found.groups()), []) if found else None


class Hint:
    """A hint of a report: the number of its conflict, what it asks for, what else it settles."""

    def __init__(self, number):
        self.number, self.asked, self.also = number, None, None

    def take(self, line):
        """Takes a line of what is said of the conflict."""
        if self.asked is None:
            self.asked = asked_by(line)
        if found := ALSO.fullmatch(line):
            self.also = found[1]


def read(part):
    """The cells of a block by the numbers of its conflicts, and its hints."""
    head = HEAD.match(part[0])
    state, cells, hints, left = int(head[2]), {int(head[1]): head[3]}, [Hint(int(head[1]))], []
    for line in part[1:]:
        if others := OTHERS.fullmatch(line):
            left = numbers_in(others[2])
            if others[1] == "Also":
                hints.append(Hint(left[0]))
        elif left and line.startswith("    "):
            for token in line.split():
                cells[left.pop(0)] = token
        else:
            hints[-1].take(line)
    return {number: (state, token) for number, token in cells.items()}, hints


def left_with(checked, tokens, rules):
    """The cells that still count conflicts with one more line of %left."""
    other = copy(checked)
    other.tables = copy(checked.tables)
    other.tables.grammar = changed(checked.grammar, tokens, rules)
    return {(state, token) for state, token, *_ in other.conflicts()}


def wrong_hint(checked, cells, hint):
    """What is wrong with what a hint was told to settle."""
    names = checked.grammar.names
    if hint.asked is None:
        return "settled without a hint" if hint.also else None
    tokens, rules = hint.asked
    left = left_with(checked, [names.index(it) for it in tokens], rules)
    settled = {it for it, (state, name) in cells.items() if (state, names.index(name)) not in left}
    wanted = settled - {hint.number} if hint.number in settled else set()
    told = set(numbers_in(hint.also) if hint.also else []) & cells.keys()
    is_part = hint.also and hint.also.endswith(DOTS)
    if told != wanted and not (is_part and told < wanted):
        return f"{sorted(wanted)} are settled by the hint for {hint.number}, told {sorted(told)}"
    return None


def text_of(grammar, rule, dot):
    """An item as a report writes it."""
    body = [grammar.names[it] for it in grammar.rules[rule].body]
    return " ".join([f"{grammar.names[grammar.rules[rule].left]}:", *body[:dot], ".", *body[dot:]])


def kernel_of(checked, state, token):
    """The kernel items that lead to a shift, where the rest of the state begins it and others of its
    kernel don't."""
    rules, core = checked.grammar.rules, checked.order[state]
    after = {(rule, dot): rules[rule].body[dot : dot + 1] for rule, dot in core}
    marked, before = {token}, None
    while before != (before := len(marked)):
        marked |= {
            rules[rule].left
            for (rule, dot), symbols in after.items()
            if rule and not dot and marked.issuperset(symbols) and symbols
        }
    is_begun = any(rule and not dot and it == [token] for (rule, dot), it in after.items())
    kernel = sorted((rule, dot) for rule, dot in core if dot or not rule)
    leads = [it for it in kernel if after[it] and marked.issuperset(after[it])]
    return leads if is_begun and leads != kernel else []


def wrong_kernel(checked, part):
    """What is wrong with the kernel items that were told to lead to the shift of a block."""
    head = HEAD.match(part[0])
    state, token = int(head[2]), checked.grammar.names.index(head[3])
    wanted = [
        (str(rule), text_of(checked.grammar, rule, dot))
        for rule, dot in kernel_of(checked, state, token)
    ]
    at = next((at for at, line in enumerate(part) if BEGINS.fullmatch(line)), len(part))
    told = []
    for line in part[at + 1 :]:
        if not (found := ITEM.fullmatch(line)):
            break
        told.append((found[1], found[2]))
    return None if told == wanted[:10] else f"{wanted} lead to the shift, told {told}"


def wrong_beside(checked, parts):
    """What is wrong with what is said beside the rivals of conflicts."""
    read_parts = [read(part) for part in parts]
    cells = {number: cell for found, _ in read_parts for number, cell in found.items()}
    for part, (_, hints) in zip(parts, read_parts):
        wrong = wrong_kernel(checked, part)
        for hint in hints:
            wrong = wrong or wrong_hint(checked, cells, hint)
        if wrong:
            return wrong + ":\n" + "\n".join(part)
    return None
