"""Files and command lines at each limit, and right above it."""
from functools import partial

from checks.scenarios.cases import run, scenario, wrong
from checks.shared.table_file import Foreign, table_of

SHORT = "%% s : 'x' ;"
LITERALS = [f"'\\{value:03o}'" for value in range(1, 256) if value != ord("x")][:65]


def names(count):
    """A grammar file with so many tokens."""
    return "%token " + " ".join(f"t{number}" for number in range(count)) + " %% s : ;"


def bars(count):
    """One with so many bars, and so many empty rules and one."""
    return "%% s :" + count * "|"


def body(count):
    """A body of so many literals, an inner action and one more literal."""
    return "%% s : " + count * "'a' " + "{ } 'a' ;"


def number(digits):
    """One with a number for a token."""
    return f"%token A {digits} %% s : A ;"


def bodies(length):
    """64 bodies of the greatest length and one of some length, each with a first token of its own:
    they share the state at the start and the one after `s`, and have one for each symbol."""
    long = [first + 254 * " 'x'" for first in LITERALS[:64]]
    return "%% s : " + "\n | ".join([*long, LITERALS[64] + (length - 1) * " 'x'"]) + " ;\n"


# What is at a limit, the grammar file, and what is said: the fault, or none; then the number of
# states and the reduce/reduce conflicts.
GRAMMARS = [
    ("longest file", SHORT.ljust(1_048_576), None, 3, 0),
    ("file too long", SHORT.ljust(1_048_577), "G1", 0, 0),
    ("most symbols", names(4_092), None, 2, 0),
    ("symbol too many", names(4_093), "G13 at line 1", 0, 0),
    ("most rules", bars(8_190), None, 2, 8_190),
    ("rule too many", bars(8_191), "G13 at line 1", 0, 0),
    ("longest body", body(253), None, 257, 0),
    ("body too long", body(254), "G13 at line 1", 0, 0),
    ("greatest number", number(32_767), None, 3, 0),
    ("number too great", number(32_768), "G9 at line 1", 0, 0),
    ("number zero", number(0), "G9 at line 1", 0, 0),
    ("number of thirty digits", number(30 * "9"), "G9 at line 1", 0, 0),
    ("most states", bodies(62), None, 16_384, 0),
    ("state too many", bodies(63), "B1", 0, 0),
]
# Over SHORT: each command line with its reply.
LINES = [("run 0000001", "1 shift 'x'"), ("to 0", "0 undo shift 'x'")]
LINES += [
    (line, "unknown command")
    for line in ("run 0", "run 00000001", "to 1000001", "back 0", "step ", "x" * 4_097)
]


def states_line(text):
    """How many states a table has, as its line says it."""
    try:
        return b"states %d" % len(table_of(text).states)
    except Foreign as why:
        return str(why).encode()


def refusal(program, fault):
    """What comes back where a file is refused."""
    status = b"3\n" if fault == "B1" else b"1\n"
    return {"message": f"{program}: {fault}\n".encode(), "status": status}


def table_is_right(name, text, fault, states, conflicts, programs):
    """What `yacc` says of a grammar at a limit, and how many states its table has."""
    said = f"conflicts: 0 shift/reduce, {conflicts} reduce/reduce\n" if conflicts else ""
    back = {"message": said.encode(), "left/y.tab": b"states %d" % states}
    back = refusal("yacc", fault) if fault else back
    it = scenario(["yacc", "grammar.y"], {"grammar.y": text.encode()}, **back)
    made = run(it, programs)
    if "left/y.tab" in made:
        made["left/y.tab"] = states_line(made["left/y.tab"])
    yield f"yacc: {name}", wrong(made, it.wanted)


def session_is_right(name, grammar, tokens, lines, back, programs):
    """What a session replies."""
    inputs = {"grammar.y": grammar.encode(), "tokens": tokens.encode()}
    stdin, stdout = ("".join(f"{pair[at]}\n" for pair in lines).encode() for at in (0, 1))
    back = back or {"stdout": stdout}
    it = scenario(["ystep", "grammar.y", "tokens"], inputs, stdin, **back)
    yield f"ystep: {name}", wrong(run(it, programs), it.wanted)


def tasks(programs, _):
    """Each file and line at a limit and right above it."""
    for name, text, fault, *counts in GRAMMARS:
        yield partial(table_is_right, name, text, fault, *counts, programs)
        back = refusal("ystep", fault) if fault else None
        yield partial(session_is_right, name, text, "", [], back, programs)
    step = [("step", "1 shift 'x'")]
    most = 1_000_000 * "'x'\n"
    yield partial(session_is_right, "most tokens", SHORT, most, step, None, programs)
    back = refusal("ystep", "K3")
    yield partial(session_is_right, "token too many", SHORT, f"{most}'x'", step, back, programs)
    yield partial(session_is_right, "command lines", SHORT, "'x'", LINES, None, programs)
