"""The arrays of a parser in C, by the library and by the table of the same grammar.

    arrays.py SEED COUNT GRAMMAR..

Each array comes of a call of its own. Together they have to say what the table says: each action,
default rule and goto, the symbol that leads to a state, each rule, the token of each number. Each
index has to lie in its array. Grammars are drawn COUNT times, and read from files. The sum comes
last.
"""
import random
import sys
from pathlib import Path

sys.path.append(str(Path(__file__).resolve().parents[3]))
import sulderko
from checks.shared.grammars import grammar_of
from checks.shared.table_file import table_of

counted = {True: 0, False: 0}


def at(array, index):
    """The number at an index, which has to be one of the array."""
    if not 0 <= index < len(array):
        raise IndexError(f"{index} of {len(array)}")
    return array[index]


def held(code, arrays, number, column):
    """What a row has at a column, where it has a number of its own there."""
    row, check, value = (getattr(code, name) for name in arrays)
    place = at(row, number) + column
    return at(value, place) if at(check, place) == column else None


def action_of(code, state, token):
    """What is done in a state at a token."""
    number = held(code, ("row", "check", "value"), state, token)
    if number is None:
        byte = at(code.bits, at(code.set, state) * code.span + token // 8)
        return ("r", at(code.usual, state)) if byte >> token % 8 & 1 else None
    if number <= code.states:
        return ("s", number) if number < code.states else ("acc", 0)
    return ("r", number - code.states) if number < code.states + code.rules else None


def goto_of(code, state, symbol):
    """Where a goto of a state leads."""
    left = symbol - code.tokens
    own = held(code, ("grow", "gcheck", "gvalue"), left, state)
    return at(code.target, left) if own is None else own


def said_by(code, table):
    """What the arrays say of all that the table speaks of."""
    tokens, states = range(table.tokens), table.states
    consistent = {q: at(code.usual, q) for q in states if at(code.set, q) == 0}
    cells = ((q, t) for q in states if q not in consistent for t in tokens)
    found = {cell: action_of(code, *cell) for cell in cells}
    return {
        "sizes": (code.states, code.rules, code.tokens),
        "defaults": consistent,
        "actions": {cell: action for cell, action in found.items() if action},
        "gotos": {cell: goto_of(code, *cell) for cell in table.gotos},
        "symbols": {to: table.names[at(code.stos, to)] for to in table.leads()},
        "rules": list(zip((it + code.tokens for it in code.lhs), code.len)),
        "numbers": [at(code.translate, it) for it in table.numbers.values()],
        "others": {at(code.translate, it) for it in range(len(code.translate))},
    }


def wanted_of(table):
    """The same by the table."""
    tokens = list(range(table.tokens))
    numbers = set(table.numbers.values())
    free = {table.tokens} if len(numbers) <= max(numbers) else set()
    return {
        "sizes": (len(table.states), len(table.rules), table.tokens),
        "defaults": table.defaults,
        "actions": {cell: it for cell, it in table.actions.items() if cell[0] not in table.defaults},
        "gotos": table.gotos,
        "symbols": table.leads(),
        "rules": table.rules,
        "numbers": tokens,
        "others": set(tokens) | free,
    }


def compare(name, grammar):
    """Counts whether the arrays of a grammar say what its table says."""
    try:
        table = table_of(sulderko.table(grammar))
        said = said_by(sulderko.code(grammar), table)
        wrong = [it for it, wanted in wanted_of(table).items() if said[it] != wanted]
    except IndexError as why:
        wrong = [f"an index lies outside of its array: {why}"]
    counted[not wrong] += 1
    if wrong:
        print(f"--- {name} FAILED: {', '.join(wrong)}\n{grammar!r}")


rng = random.Random(int(sys.argv[1]))
for number in range(int(sys.argv[2])):
    text = grammar_of(rng).text
    if not sulderko.fault(text):
        compare(f"drawn {number}", text)
for path in sys.argv[3:]:
    compare(path, Path(path).read_bytes())
print(f"{counted[True]} passed, {counted[False]} failed")
sys.exit(bool(counted[False]))
