"""What many conflicts come from, as a report says it, tried on tables of the changed grammar."""
import re
from collections import Counter
from dataclasses import replace

from checks.shared.tables import Tables

CHANGE = re.compile(r"  (\d+) (?:of (\d+) conflicts goe?s?|more) when (.*)")
LINES = re.compile(r"(.*) (?:get precedence lines|gets a precedence line)")
OWN = re.compile(r"rule (\d+) (?:\(line \d+\) )?a precedence of its own by %prec")
PAIR = re.compile(
    r"  (\d+) of (\d+) conflicts stands? between rule (\d+)[^,]*, which is taken, and rule (\d+)"
)
COVERED = re.compile(
    r"  (\d+) of (\d+) conflicts goe?s? without rule (\d+)[^:]*: what it derives comes of (.*) too"
)
RULE = re.compile(r"rule (\d+)")
COPY = re.compile(
    r"  With a copy of (\S+), which has the same rules, in rule (\d+)[^)]*\) (\d+) of (\d+) conflicts? "
)
MOST_PAIRS = 5


def counted(tables):
    """How many conflicts tables count."""
    return tables.shift_reduce + tables.reduce_reduce


def told_change(text, names):
    """The tokens and the rules that a change gives precedences to."""
    tokens, rules = [], []
    for part in text.split(", and "):
        if own := OWN.fullmatch(part):
            rules.append(int(own[1]))
        elif lines := LINES.fullmatch(part):
            tokens += [names.index(it) for it in re.split(", | and ", lines[1])]
    return tokens, rules


def changed(grammar, tokens, rules):
    """The grammar where these tokens stand on one more line of %left, and these rules with them."""
    levels = [level for level, _ in grammar.precedences.values()]
    line = (max(levels, default=0) + 1, "left")
    made = [
        replace(rule, precedence=line) if at in rules or rule.giver in tokens else rule
        for at, rule in enumerate(grammar.rules)
    ]
    return replace(grammar, rules=made, precedences=grammar.precedences | dict.fromkeys(tokens, line))


def wrong_changes(grammar, lines, total):
    """What is wrong with the changes that were told, each tried with those before it."""
    tokens, rules, left = [], [], total
    for settles, all_told, text in lines:
        more, own = told_change(text, grammar.names)
        if not more and not own:
            return f"no change: {text}"
        tokens, rules = tokens + more, rules + own
        left -= int(settles)
        now = counted(Tables(changed(grammar, tokens, rules)))
        if now != left or int(all_told or total) != total:
            return f"{left} of {total} conflicts left, told of {text}, for {now}"
    return None


def pairs_in(checked):
    """How many cells have a conflict between each two rules, the one that is reduced first."""
    pairs = Counter()
    for taken, left in checked.cells.values():
        pairs.update((left[0], it) for it in ([] if taken else left[1:10]))
    return pairs


def wrong_pairs(checked, lines, total):
    """What is wrong with the pairs of rules that were told."""
    pairs = pairs_in(checked)
    if len(lines) != min(len(pairs), MOST_PAIRS):
        return f"{len(lines)} pairs for {len(pairs)}"
    for count, all_told, taken, other in (map(int, it) for it in lines):
        if pairs[taken, other] != count or all_told != total:
            return f"rules {taken} and {other}: {count} for {pairs[taken, other]}"
    return None


def is_covered(rules, number, by):
    """Whether the left side of a rule derives its body by other rules, all but the last of one
    symbol."""
    symbol = rules[number].left
    for at in by[:-1]:
        if at == number or rules[at].left != symbol or len(rules[at].body) != 1:
            return False
        symbol = rules[at].body[0]
    last = rules[by[-1]]
    return by[-1] != number and last.left == symbol and last.body == rules[number].body


def wrong_covered(grammar, lines, total):
    """What is wrong with the rules that were told to be covered by others, each tried by tables
    without it."""
    for settles, all_told, number, told in lines:
        number, by = int(number), [int(it) for it in RULE.findall(told)]
        if not is_covered(grammar.rules, number, by):
            return f"rules {by} don't cover rule {number}"
        rules = [rule for at, rule in enumerate(grammar.rules) if at != number]
        left = counted(Tables(replace(grammar, rules=rules)))
        if total - left != int(settles) or int(all_told) != total:
            return f"{settles} told to go without rule {number}, for {total - left}"
    return None


def with_copy(grammar, symbol, number):
    """The grammar with a copy of a nonterminal in the body of a rule."""
    copy, rules = len(grammar.names), list(grammar.rules)
    body = [copy if it == symbol else it for it in rules[number].body]
    copies = [replace(rule, left=copy) for rule in rules if rule.left == symbol]
    rules[number] = replace(rules[number], body=body)
    return replace(grammar, names=[*grammar.names, "copy"], rules=rules + copies)


def wrong_copies(grammar, lines, total):
    """What is wrong with the copies that were told to split states, each tried."""
    for name, number, left, all_told in lines:
        changed_so = with_copy(grammar, grammar.names.index(name), int(number))
        now = counted(Tables(changed_so))
        if now != int(left) or now >= total or int(all_told) != total:
            return f"{left} told to be left with a copy of {name} in rule {number}, for {now}"
    return None


def wrong_causes(checked, text):
    """What is wrong with what was told of several kinds of conflicts together."""
    head = text.split("\n\n")[0]
    changes, pairs = CHANGE.findall(head), PAIR.findall(head)
    total = counted(checked.tables)
    if "groups\n" not in head + "\n" and not (changes or pairs):
        return None
    return (
        wrong_changes(checked.grammar, changes, total)
        or wrong_pairs(checked, pairs, total)
        or wrong_covered(checked.grammar, COVERED.findall(head), total)
    )


def wrong_trials(checked, text):
    """What is wrong with what was told of causes, and of copies that split states."""
    copies, total = COPY.findall(text), counted(checked.tables)
    return wrong_causes(checked, text) or wrong_copies(checked.grammar, copies, total)
