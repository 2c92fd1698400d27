"""Every beginning of two grammar files, as a file of its own, with what both programs say of it."""
from functools import partial

from checks.scenarios.cases import run, scenario, wrong

TABLE = """table 2
symbols {symbols}
0 t 0 $end
1 t 256 error
{token}{accept} n - $accept
{left} n - s
rules 2
0 {accept} 2
1 {left} {length}
states {states}
"""
EMPTY = "d 0 1\ng 0 {left} 1\na 1 0 acc\nend\n"
ONE = "a 0 2 s 1\ng 0 {left} 2\nd 1 1\na 2 0 acc\nend\n"


def table_of(token, is_empty):
    """The table of the rule `s : ;`, or of one whose body is the token; that may stand unused."""
    accept = 3 if token else 2
    named = f"2 t {ord(token[1])} {token}\n" if token else ""
    numbers = {"symbols": accept + 2, "accept": accept, "left": accept + 1, "token": named}
    numbers |= {"length": 0 if is_empty else 1, "states": 2 if is_empty else 3}
    return (TABLE + (EMPTY if is_empty else ONE)).format(**numbers).encode()


# A file, and for each answer the lengths of the beginnings that get it: the code of a fault in line
# 1, or the token of the table and whether the rule is empty.
FILES = {
    "%% s : 'x' ;": {
        "G4": [1],
        "G5": [0, *range(2, 6)],
        (None, True): [6, 7],
        "G2": [8, 9],
        ("'x'", False): range(10, 13),
    },
    "%left 'a' %% s : 'a' { x } ;": {
        "G4": [*range(1, 5), 11],
        "G5": [0, 5, 6, 9, 10, *range(12, 16)],
        "G2": [7, 8, 18, 19, *range(22, 26)],
        ("'a'", True): [16, 17],
        ("'a'", False): [20, 21, *range(26, 29)],
    },
}
# What a session without tokens says: the rule is reduced, or the end comes too early.
RUN = "run 9\n"
REPLIES = {True: b"1 reduce 1\n2 accept\n", False: b"1 detect\n2 fail\n"}


def wanted_of(answer, program):
    """What comes back beside the files that were there."""
    if isinstance(answer, str):
        return {"message": f"{program}: {answer} at line 1\n".encode(), "status": b"1\n"}
    if program == "yacc":
        return {"left/y.tab": table_of(*answer)}
    return {"stdout": REPLIES[answer[1]]}


def looked_at(text, answer, programs):
    """A beginning as a grammar file for both programs."""
    inputs = {"grammar.y": text.encode()}
    yacc = scenario(["yacc", "grammar.y"], inputs, **wanted_of(answer, "yacc"))
    inputs, words = {**inputs, "tokens": b""}, ["ystep", "grammar.y", "tokens"]
    ystep = scenario(words, inputs, RUN.encode(), **wanted_of(answer, "ystep"))
    for it in (yacc, ystep):
        yield f"{it.words[0]}: {text!r}", wrong(run(it, programs), it.wanted)


def tasks(programs, _):
    """Each beginning of each file."""
    for text, answers in FILES.items():
        lengths = sorted(length for some in answers.values() for length in some)
        if lengths != list(range(len(text) + 1)):
            raise ValueError(f"{text}: these are not all of its beginnings")
        for answer, some in answers.items():
            for length in some:
                yield partial(looked_at, text[:length], answer, programs)
