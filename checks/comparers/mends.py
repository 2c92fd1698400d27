"""Changes of rules that `ydebug conflicts` names, made here, with their conflicts counted and all
sentences of as many tokens compared: what `choices` needs for them."""
import re

from checks.shared.precedences import Draw
from checks.shared.tables import Tables

RULE = r"rule (\d+)(?: \(line \d+\))?"
MEND = re.compile(
    r"  (With(?! a copy of).*?),? (\d+) of (\d+) conflicts? (?:is|are) left"
    r"(?:; the language (?:is the same on all sentences of up to (\d+) tokens \((\d+)\)"
    r"|stays the same))?\."
)
WITHOUT = re.compile(f"Without {RULE}")
SEPARATED = re.compile(rf"Without (\S+) in the list's rules but {RULE}, and there with one .*")
INLINED = re.compile(f"With the rules of (\\S+) written out in its place in {RULE}")
OPENED = re.compile(r"With the rules of (\S+)(?: and of (\S+))? written out where they are used")
MERGED = re.compile(r"With (\S+) in place of (\S+) everywhere, and each rule once")
REPLACED = re.compile(f"With (\\S+) in place of (\\S+) in {RULE}")
LISTED = re.compile(f"With a new nonterminal for the elements, .* at the end of {RULE} and alone .*")
NEW_TOKEN = re.compile(r"With another token than (\S+) before (\S+), by the lexer")
FRESH = "new"
# The most strings of a symbol that are made for one comparison.
MOST_STRINGS = 20_000


class Rules(Draw):
    """A grammar by its tokens, its lines of precedence, its start symbol and its rules, each a left
    side, a body and what `%prec` names."""

    def __init__(self, tokens, levels, start, rules):
        self.tokens, self.lows, self.levels = list(tokens), [], levels
        self.lefts = list(dict.fromkeys([start, *(left for left, *_ in rules)]))
        self.rules = [(left, list(body), last, False) for left, body, last in rules]
        self.has_end = False
        self.precedences = {}
        for at, (kind, listed) in enumerate(levels, 1):
            self.precedences |= {it: (at, kind) for it in listed}


def with_rules(draw, rules, *more):
    """The same grammar with other rules, and with further tokens."""
    made = Rules([*draw.tokens, *more], draw.levels, draw.lefts[0], rules)
    made.lows = draw.lows
    return made


def inlined(rules, rule, symbol):
    """A rule once for each rule of a nonterminal, in its first place."""
    left, body, last = rule
    at = body.index(symbol)
    bodies = (it for other, it, _ in rules if other == symbol)
    made = [(left, [*body[:at], *it, *body[at + 1 :]], last) for it in bodies]
    return [it for it in made if it[1] != [left]]


def swapped(body, symbol, by):
    """A body with a symbol in place of another one."""
    return [by if it == symbol else it for it in body]


def merged(rules, symbol, by):
    """One nonterminal in place of two."""
    found = []
    for left, body, last in rules:
        made = by if left == symbol else left, swapped(body, symbol, by), last
        if made[1] != [made[0]] and all(made[:2] != it[:2] for it in found):
            found.append(made)
    return found


def listed(rules, number):
    """A list from left to right."""
    symbol = rules[number - 1][0]
    is_empty = (symbol, []) in [it[:2] for it in rules]
    for at, (left, body, last) in enumerate(rules, 1):
        if at == number:
            yield left, [*body[:-1], FRESH], last
            if not is_empty:
                yield left, [FRESH], last
        elif left == symbol and body:
            yield FRESH, body, last
        else:
            yield left, body, last


def separated(rules, symbol, number):
    """A list whose separator stands alone, or not at all."""
    ours = rules[number - 1][0]
    for at, rule in enumerate(rules, 1):
        left, body, last = rule
        if at == number:
            yield from inlined(rules, rule, symbol)
        elif left == ours:
            yield left, [it for it in body if it != symbol], last
        else:
            yield rule


def opened(rules, symbols):
    """Rules written out where they are used."""
    for rule in rules:
        symbol = next((it for it in rule[1] if it in symbols), None)
        yield from inlined(rules, rule, symbol) if symbol else [rule]


def replaced(rules, by, symbol, number):
    """A nonterminal in place of another one in a rule, also where that rule is there."""
    left, body, last = rules[number - 1]
    made = left, swapped(body, symbol, by), last
    return [*rules[: number - 1], made, *rules[number:]]


def parted(rules, token, after):
    """Another token before a symbol."""
    for left, body, last in rules:
        pairs = zip(body, [*body[1:], None])
        yield left, [FRESH if it == (token, after) else it[0] for it in pairs], last


def giver_of(draw, body, last):
    """The token that gives a rule its precedence, whatever is written in place of its symbols."""
    return last or next((it for it in reversed(body) if it in draw.tokens), None)


def changed(draw, words):
    """The grammar after a change in words; None where these aren't known."""
    rules = [(left, body, giver_of(draw, body, last)) for left, body, last, _ in draw.rules]
    if found := WITHOUT.fullmatch(words):
        return with_rules(draw, [it for at, it in enumerate(rules, 1) if at != int(found[1])])
    if found := SEPARATED.fullmatch(words):
        return with_rules(draw, list(separated(rules, found[1], int(found[2]))))
    if found := INLINED.fullmatch(words):
        at = int(found[2])
        made = inlined(rules, rules[at - 1], found[1])
        return with_rules(draw, [*rules[: at - 1], *made, *rules[at:]])
    if found := OPENED.fullmatch(words):
        return with_rules(draw, list(opened(rules, {found[1], found[2] or found[1]})))
    if found := MERGED.fullmatch(words):
        return with_rules(draw, merged(rules, found[2], found[1]))
    if found := REPLACED.fullmatch(words):
        return with_rules(draw, replaced(rules, found[1], found[2], int(found[3])))
    if found := LISTED.fullmatch(words):
        return with_rules(draw, list(listed(rules, int(found[1]))))
    if found := NEW_TOKEN.fullmatch(words):
        return with_rules(draw, list(parted(rules, found[1], found[2])), FRESH)
    return None


def language(draw, most):
    """All sentences of up to so many tokens, or None where there are too many strings."""
    strings = {it: {(it,)} for it in draw.tokens} | {it: set() for it in draw.lefts}
    grows = True
    while grows:
        grows = False
        for left, body, *_ in draw.rules:
            made = {()}
            for symbol in body:
                made = {a + b for a in made for b in strings[symbol] if len(a + b) <= most}
                if len(made) > MOST_STRINGS:
                    return None
            grows |= not made <= strings[left]
            strings[left] |= made
    return strings[draw.lefts[0]]


def conflicts_in(draw):
    """How many conflicts a grammar has."""
    tables = Tables(draw.grammar())
    return tables.shift_reduce + tables.reduce_reduce


def wrong_mend(draw, line):
    """What is wrong with a change that is told: None where nothing is, and "" where the line tells
    none."""
    found = MEND.fullmatch(line)
    if not found:
        return ""
    after = changed(draw, found[1])
    if after is None:
        return "a change that isn't known"
    left, total = conflicts_in(after), conflicts_in(draw)
    if (left, total) != (int(found[2]), int(found[3])) or left >= total:
        return f"{left} of {total} conflicts are left"
    if NEW_TOKEN.fullmatch(found[1]):
        return None
    most = int(found[4] or 5)
    before, now = language(draw, most), language(after, most)
    if before is None or now is None:
        return None
    if found[5] and len(before) != int(found[5]):
        return f"there are {len(before)} sentences of up to {most} tokens"
    return None if before == now else f"the language is another one: {sorted(before ^ now)[:3]}"
