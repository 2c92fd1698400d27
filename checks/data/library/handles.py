"""Parses behind handles against sessions of `ystep`, at random. The sum comes last.

    handles.py SEED COUNT

Grammars, tokens and command lines are drawn COUNT times. Each line is made by calls on a handle, in
small steps, and by another handle that goes to positions at once; the texts have to be those that
`ystep` replies, and both handles have to stand at one place.
"""
import random
import sys
from pathlib import Path

sys.path.append(str(Path(__file__).resolve().parents[3]))
import sulderko
from checks.shared.grammars import grammar_of, text_of, tokens_of

K, R = sulderko.Kind, sulderko.Reason
WORDS = {it: it.name.lower().replace("_", " ") for it in K}
NAMED = {K.SHIFT, K.POP, K.DISCARD, K.INSERT, K.DROP}
COUNTED = "step", "run", "back", "to"
PLAIN = "show", "tree", "unwind", "drop"
counted = {True: 0, False: 0}


def hold(name, made, wanted):
    """Counts whether what was made is what is wanted."""
    counted[made == wanted] += 1
    if made != wanted:
        print(f"--- {name} FAILED\n{made!r} and not {wanted!r}")


def names_of(grammar):
    """The names of the symbols, by their numbers."""
    lines = sulderko.table(grammar).decode().splitlines()
    return [line.split(" ", 3)[3] for line in lines[2 : 2 + int(lines[1].split()[1])]]


def said(names, position, between, move):
    """The line of a move."""
    tail = f" {names[move.subject]}" if move.kind in NAMED else ""
    tail = f" {move.subject}" if move.kind == K.REDUCE else tail
    return f"{position}{between}{WORDS[move.kind]}{tail}\n"


def moves(parse, names, count, call, between):
    """Some moves, each with its line, and why there are no more."""
    text = ""
    for _ in range(count):
        try:
            move = call()
        except sulderko.Refused as refused:
            ends = refused.reason in (R.HALTED, R.AT_START)
            return text if text and ends else text + f"{refused}\n"
        text += said(names, parse.place().position, between, move)
    return text


def told(call):
    """A text, or why there is none."""
    try:
        return call().decode()
    except sulderko.Refused as refused:
        return f"{refused}\n"


def reply(parse, names, line):
    """What a handle gives for a command line."""
    word, _, rest = line.partition(" ")
    now = parse.place().position
    if word in ("step", "run") or word == "to" and int(rest) > now:
        count = int(rest) - now if word == "to" else int(rest or 1)
        return moves(parse, names, count, parse.step, " ")
    if word in ("back", "to"):
        count = now - int(rest) if word == "to" else int(rest)
        return moves(parse, names, count, parse.back, " undo ")
    if word == "insert":
        return moves(parse, names, 1, lambda: parse.insert(rest), " ")
    if word == "drop":
        return moves(parse, names, 1, parse.drop, " ")
    return told(getattr(parse, word))


def travel(parse, names, line):
    """The same by a handle that goes to positions at once."""
    word, _, rest = line.partition(" ")
    if word not in COUNTED:
        reply(parse, names, line)
        return
    count, now = int(rest or 1), parse.place().position
    to = {"to": count, "back": max(now - count, 0)}.get(word, now + count)
    try:
        parse.to(to)
    except sulderko.Refused as refused:
        hold("to", refused.reason, R.HALTED)
    else:
        hold("to", parse.place().position, to)


def line_of(rng, names, tokens):
    """A command line at random."""
    word = rng.choice([*COUNTED, *COUNTED, *PLAIN, "insert"])
    if word == "insert":
        return f"insert {rng.choice([*names[2:tokens], 'nothing'])}"
    if word in ("run", "back"):
        return f"{word} {rng.randint(1, 9)}"
    return f"to {rng.randint(0, 40)}" if word == "to" else word


def look_at_place(parse):
    """The place of a handle is what `show` says."""
    place, (head, stack, rest, counter, errors) = parse.place(), parse.show().decode().splitlines()
    hold("place", f"{place.position} {place.mode.name.lower()}", head)
    hold("counts", f"counter: {place.counter} errors: {place.errors}", f"{counter} {errors}")
    hold("nothing", (place.height == 0, place.left == 0), (stack == "stack:", rest == "rest:"))


def compare(rng):
    """One grammar, its tokens and some lines."""
    drawn = grammar_of(rng)
    grammar, tokens = drawn.text, text_of(drawn, tokens_of(drawn, rng))
    if sulderko.fault(grammar, tokens):
        return
    names = names_of(grammar)
    lines = [line_of(rng, names, drawn.tokens) for _ in range(rng.randint(1, 25))]
    wanted = sulderko.session(grammar, tokens, "\n".join(lines)).decode()
    with sulderko.Stepper(grammar, tokens) as parse, sulderko.Stepper(grammar, tokens) as other:
        made = ""
        for line in lines:
            made += reply(parse, names, line)
            travel(other, names, line)
            hold("one place", (other.place(), other.show()), (parse.place(), parse.show()))
            look_at_place(parse)
        hold("replies", made, wanted)


def look_at_ends():
    """Handles that are closed, opened again, refused."""
    parse = sulderko.Stepper("%token A %% s : A ;", "A")
    hold("iterated", [it.kind for it in parse], [K.SHIFT, K.REDUCE, K.ACCEPT])
    hold("unwound", parse.unwind(), b"s\nA\n")
    parse.close()
    parse.close()
    hold("closed", told(parse.show), "closed\n")
    for words in (("%%", ""), ("%token A %% s : A ;", "B")):
        try:
            sulderko.Stepper(*words)
        except sulderko.Fault as fault:
            hold("fault", fault.code, "K1" if words[1] else "G5")


rng = random.Random(int(sys.argv[1]))
look_at_ends()
for _ in range(int(sys.argv[2])):
    compare(rng)
print(f"{counted[True]} passed, {counted[False]} failed")
sys.exit(bool(counted[False]))
