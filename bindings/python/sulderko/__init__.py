"""Sulderko's proved core: tables of yacc grammars, verdicts on tokens, sessions of `ystep`.

    >>> import sulderko
    >>> grammar = "%token NUM %% list : | list NUM ';' ;"
    >>> sulderko.judge(grammar, "NUM ';'")
    Verdict(outcome=<Outcome.ACCEPTED: 1>, exact=True, steps=5, token=None)

Each function is one call of libsulderko, by ctypes: nothing is built, and nothing is decided
here. Texts are bytes, or strings, which are encoded as UTF-8; texts that come back are bytes. A
grammar or tokens with a fault raise `Fault`, a grammar with more than 16,384 item sets
`TooManySets`, and where memory runs out `MemoryError` comes. Threads may call at once: ctypes lets
the others run meanwhile.

The library is the file that the variable SULDERKO_LIBRARY names; else libsulderko.so.1 beside this
module, where a wheel has it, or in the folder bin of the checkout that holds this module; else the
one that the system finds.
"""
from sulderko.answers import Code, Conflicts, Fault, Kind, Mode, Move, Outcome, Outlook, Place
from sulderko.answers import Reason, Refused, TooManySets, Verdict
from sulderko.calls import code, conflicts, fault, judge, report, session, table, tokens
from sulderko.sessions import Session
from sulderko.stepper import Stepper

__all__ = [
    "Code",
    "Conflicts",
    "Fault",
    "Kind",
    "Mode",
    "Move",
    "Outcome",
    "Outlook",
    "Place",
    "Reason",
    "Refused",
    "Session",
    "Stepper",
    "TooManySets",
    "Verdict",
    "code",
    "conflicts",
    "fault",
    "judge",
    "report",
    "session",
    "table",
    "tokens",
]
