"""Which tokens could come next, by the library and by sessions of `ystep`. The sum comes last.

    expected.py SEED COUNT [GRAMMAR TOKENS]..

Grammars, tokens and command lines are drawn COUNT times; of each pair of files the parse is gone
through by its positions. Wherever a handle stands then, each token is inserted in a session of its
own, which makes steps while these are reductions: the library has to expect exactly those tokens
that are shifted next, and `$end` where the input is accepted next once all upcoming tokens are
dropped. The handle has to stand where it stood.
"""
import random
import sys
from pathlib import Path

sys.path.append(str(Path(__file__).resolve().parents[3]))
import sulderko
from checks.shared.grammars import grammar_of, text_of, tokens_of
from sulderko.calls import symbol_names

MANY, LIMIT, MOST_PLACES = 300, 1_000_000, 60
UNEXPECTED, EXPECTED, UNTOLD = sulderko.Outlook
ENDLESS = "%token X HIGH %nonassoc X %nonassoc HIGH %% s : t s | X ; t : %prec HIGH ;"
counted = {True: 0, False: 0}


def hold(name, made, wanted):
    """Counts whether what was made is what is wanted."""
    counted[made == wanted] += 1
    if made != wanted:
        print(f"--- {name} FAILED\n{made!r} and not {wanted!r}")


def said(grammar, tokens, lines, more):
    """What a session replies to further lines, each without its position."""
    texts = (sulderko.session(grammar, tokens, "\n".join(it)) for it in (lines, lines + more))
    before, whole = texts
    replies = whole[len(before) :].decode().splitlines()
    return [it.split(" ", 1)[-1] if it[0].isdigit() else it for it in replies]


def wanted_of(replies, edits, taking):
    """What the replies to so many edits and then to `run` say of a token."""
    if any(not it.startswith(("insert ", "drop ")) for it in replies[:edits]):
        return UNEXPECTED
    after = replies[edits:]
    step = next((it for it in after if not it.startswith("reduce ")), None)
    return UNTOLD if step is None and len(after) == MANY else (UNEXPECTED, EXPECTED)[step == taking]


def wanted_at(grammar, tokens, lines, names, left):
    """The same of each token, where a session stands after these lines."""
    found = []
    for name in names:
        is_end = name == "$end"
        edits = ["drop"] * left if is_end else [f"insert {name}"]
        replies = said(grammar, tokens, lines, [*edits, f"run {MANY}"])
        found.append(wanted_of(replies, len(edits), "accept" if is_end else f"shift {name}"))
    return found


def compare(parse, grammar, tokens, lines):
    """What is told where a parse stands, to which these lines lead a session."""
    was = parse.place(), parse.show(), parse.tree()
    made = parse.outlooks()
    hold("the place", (parse.place(), parse.show(), parse.tree()), was)
    names = [it.decode() for it in symbol_names(grammar)]
    hold("the names", parse.expected(), [n.encode() for n, o in zip(names, made) if o == EXPECTED])
    wanted = wanted_at(grammar, tokens, lines, names[: len(made)], was[0].left)
    hold(f"{grammar!r} {tokens!r} {lines}", made, wanted)


def line_of(rng, names):
    """A call at random, as a command line and as a call of a handle."""
    name = rng.choice(names)
    return rng.choice(
        [
            *[("step", lambda parse: parse.step())] * 5,
            ("back 1", lambda parse: parse.back()),
            ("drop", lambda parse: parse.drop()),
            (f"insert {name}", lambda parse: parse.insert(name)),
        ]
    )


def compare_drawn(rng):
    """One grammar, its tokens, and the places to which some lines lead."""
    drawn = grammar_of(rng)
    grammar, tokens = drawn.text, text_of(drawn, tokens_of(drawn, rng))
    if sulderko.fault(grammar, tokens):
        return
    lines = []
    with sulderko.Stepper(grammar, tokens) as parse:
        for _ in range(rng.randint(1, 12)):
            line, call = line_of(rng, drawn.names[2 : drawn.tokens])
            lines.append(line)
            try:
                call(parse)
            except sulderko.Refused:
                pass
            compare(parse, grammar, tokens, lines)


def compare_files(grammar, tokens):
    """The positions of the parse of a file."""
    with sulderko.Stepper(grammar, tokens) as parse:
        for position in range(MOST_PLACES):
            compare(parse, grammar, tokens, [f"to {position}"])
            if parse.place().mode not in (sulderko.Mode.RUNNING, sulderko.Mode.POPPING):
                break
            parse.step()


def look_at_limits():
    """What can't be told: reductions without an end, and few positions left."""
    parse = sulderko.Stepper(ENDLESS, "X")
    hold("endless", parse.outlooks(), [UNEXPECTED, UNEXPECTED, UNTOLD, UNEXPECTED])
    hold("no names", parse.expected(), [])
    long = sulderko.Stepper("%token A B %% s : | s A | B ;", "A " * (LIMIT // 2))
    for position in (LIMIT - 1, LIMIT):
        long.to(position)
        hold("the limit", long.outlooks(), [UNTOLD, UNEXPECTED, UNTOLD, UNTOLD])
        hold("the place", (long.place().position, long.place().left), (position, LIMIT - position))
    long.close()
    try:
        long.outlooks()
    except sulderko.Refused as refused:
        hold("closed", refused.reason, sulderko.Reason.CLOSED)


rng = random.Random(int(sys.argv[1]))
look_at_limits()
for _ in range(int(sys.argv[2])):
    compare_drawn(rng)
for pair in zip(sys.argv[3::2], sys.argv[4::2]):
    compare_files(*(Path(it).read_bytes() for it in pair))
print(f"{counted[True]} passed, {counted[False]} failed")
sys.exit(bool(counted[False]))
