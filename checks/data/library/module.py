"""Asks the module sulderko for each kind of answer and of refusal. The sum comes last.

    module.py GRAMMAR TOKENS COMMANDS REPLIES
"""
import sys
import threading
from pathlib import Path

import sulderko

SUMS = "%token NUM %left '+' %% sum : sum '+' sum | NUM ;"
BROKEN = "%token NUM\n%% sum : sum '+' sum\n | NUM : ;"
counted = {True: 0, False: 0}


def hold(name, made, wanted):
    """Counts whether what was made is what is wanted."""
    counted[made == wanted] += 1
    if made != wanted:
        print(f"--- {name} FAILED\n{made!r} and not {wanted!r}")


def raised(call, *words):
    """The fault that a call raises, by its parts and its words."""
    try:
        return call(*words)
    except sulderko.Fault as fault:
        return fault.code, fault.line, fault.offset, fault.place, str(fault)


def look_at_faults():
    """Each call raises a fault, and `fault` answers it."""
    left, unknown = ("G6", 3, 35, None, "G6 at line 3"), ("K1", None, None, 3, "K1 at token 3")
    for call in (sulderko.table, sulderko.report, sulderko.conflicts):
        hold(call.__name__, raised(call, BROKEN), left)
    for call in (sulderko.tokens, sulderko.judge):
        hold(call.__name__, raised(call, BROKEN, ""), left)
        hold(call.__name__, raised(call, SUMS, "NUM '+' NIM"), unknown)
    hold("session", raised(sulderko.session, SUMS, "NUM '+' NIM", "show"), unknown)
    hold("Session", raised(sulderko.Session, BROKEN, ""), left)
    long = raised(sulderko.table, b" " * (1 << 20) + b" ")
    hold("too long", long, ("G1", None, None, None, "G1"))
    hold("no fault", sulderko.fault(SUMS, "NUM"), None)


def look_at_answers():
    """Verdicts, numbers and conflicts."""
    accepted = sulderko.Verdict(sulderko.Outcome.ACCEPTED, False, steps=6)
    rejected = sulderko.Verdict(sulderko.Outcome.REJECTED, False, token=2)
    hold("judge", sulderko.judge(SUMS, "NUM '+' NUM"), sulderko.Verdict(accepted.outcome, False, 7))
    hold("judge", sulderko.judge(SUMS, b"NUM NUM"), rejected)
    hold("tokens", sulderko.tokens(SUMS, "NUM'+'NUM"), [2, 3, 2])
    loose = SUMS.replace("%left '+'", "")
    hold("conflicts", sulderko.conflicts(loose), sulderko.Conflicts(1, 0))
    hold("table", sulderko.table(SUMS).splitlines()[0], b"table 2")


def look_at_session(grammar, tokens, commands, replies):
    """A session line by line, and all its lines at once, by some threads."""
    session, said = sulderko.Session(grammar, tokens), b""
    for line in commands.splitlines():
        said += session.command(line)
    hold("a session by lines", said, replies)
    hold("a session", sulderko.session(grammar, tokens, commands), replies)
    made = []
    ask = lambda: made.append(sulderko.session(grammar, tokens, commands))
    threads = [threading.Thread(target=ask) for _ in range(8)]
    for it in (*threads, *threads):
        it.join() if it.ident else it.start()
    hold("threads", made, [replies] * 8)


look_at_faults()
look_at_answers()
look_at_session(*(Path(it).read_bytes() for it in sys.argv[1:]))
print(f"{counted[True]} passed, {counted[False]} failed")
sys.exit(bool(counted[False]))
