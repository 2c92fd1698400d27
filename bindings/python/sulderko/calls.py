"""The calls of the library."""
from __future__ import annotations

import ctypes
from ctypes import byref, c_char, c_size_t
from typing import Any, List, Optional, Tuple, Union

from sulderko import library
from sulderko.answers import Code, Conflicts, Fault, Outcome, TooManySets, Verdict

Text = Union[bytes, str]
FIRST_ROOM = 1 << 16
BAD_GRAMMAR, BAD_TOKENS, NO_MEMORY, TOO_MANY_SETS = 1, 2, 3, 4


def as_bytes(text: Text) -> bytes:
    """The bytes of a text."""
    return text.encode() if isinstance(text, str) else bytes(text)


def given(*texts: Text) -> List[Any]:
    """Each text as a pointer and a length."""
    return [it for text in map(as_bytes, texts) for it in (text, len(text))]


def called(name: str, *words: Any) -> int:
    """The status of a call; it raises where memory ran out or there are too many item sets."""
    status: int = getattr(library.library(), f"sulderko_{name}")(*words)
    if status == NO_MEMORY:
        raise MemoryError("no memory for a call of libsulderko")
    if status == TOO_MANY_SETS:
        raise TooManySets("the grammar has more than 16,384 item sets")
    return status


def look(status: int, grammar: Text, tokens: Text = b"") -> None:
    """Raises the fault that a status speaks of."""
    if status:
        raise fault(grammar, tokens) or RuntimeError(f"status {status} without a fault")


def filled(
    name: str, kind: Any, texts: Tuple[Text, ...], *more: Any, which: Tuple[int, ...] = ()
) -> Tuple[int, Any, int]:
    """The status of a call that fills memory with items of a kind, the memory, and how many."""
    room, length = FIRST_ROOM, c_size_t()
    while True:
        out = (kind * room)()
        status = called(name, *given(*texts), *which, out, room, byref(length), *more)
        if length.value <= room:
            return status, out, length.value
        room = length.value


def session(grammar: Text, tokens: Text, commands: Text) -> bytes:
    """What `ystep` replies to command lines, from the start of a parse of tokens by a grammar."""
    status, out, length = filled("session", c_char, (grammar, tokens, commands))
    look(status, grammar, tokens)
    return out[:length]


def of_tables(name: str, grammar: Text) -> Tuple[bytes, Conflicts]:
    """A text of a grammar's tables, and their conflicts."""
    found = library.Conflicts()
    status, out, length = filled(name, c_char, (grammar,), byref(found))
    look(status, grammar)
    return out[:length], Conflicts(found.shift_reduce, found.reduce_reduce)


def table(grammar: Text) -> bytes:
    """The table of a grammar, as `yacc` writes it."""
    return of_tables("table", grammar)[0]


def symbol_names(grammar: Text) -> List[bytes]:
    """The names of the symbols of a grammar, by the numbers of its table: the tokens first."""
    lines = table(grammar).split(b"\n")
    return [line.split(b" ", 3)[3] for line in lines[2 : 2 + int(lines[1].split()[1])]]


def report(grammar: Text) -> bytes:
    """The report on a grammar, as `yacc -v` writes it."""
    return of_tables("report", grammar)[0]


def conflicts(grammar: Text) -> Conflicts:
    """How many conflicts the cells of a grammar's tables count."""
    return of_tables("table", grammar)[1]


def array(grammar: Text, number: int, sizes: library.Sizes) -> List[int]:
    """An array of the parser in C of a grammar; the sizes are filled in."""
    status, out, length = filled("code", c_size_t, (grammar,), byref(sizes), which=(number,))
    look(status, grammar)
    return list(out[:length])


def code(grammar: Text) -> Code:
    """The arrays of the parser in C that `ycc` writes for a grammar."""
    sizes = library.Sizes()
    arrays = [array(grammar, number, sizes) for number in range(len(Code.ARRAYS))]
    return Code(sizes.states, sizes.rules, sizes.tokens, sizes.span, *arrays)


def tokens(grammar: Text, text: Text) -> List[int]:
    """The number of the symbol that each of the tokens names, as the table has it."""
    status, out, length = filled("tokens", c_size_t, (grammar, text))
    look(status, grammar, text)
    return list(out[:length])


def judge(grammar: Text, text: Text) -> Verdict:
    """Whether tokens are a sentence of a grammar."""
    found = library.Verdict()
    status = called("judge", *given(grammar, text), byref(found))
    look(status, grammar, text)
    outcome = Outcome(found.outcome)
    return Verdict(outcome, bool(found.exact), found.steps or None, found.token or None)


def fault(grammar: Text, text: Text = b"") -> Optional[Fault]:
    """The first fault of a grammar, or else of tokens by it; None where there is none."""
    found = library.Fault()
    status = called("fault", *given(grammar, text), byref(found))
    if status == BAD_GRAMMAR:
        has_line = found.line > 0
        return Fault(f"G{found.code}", found.line or None, found.offset if has_line else None)
    return Fault(f"K{found.code}", place=found.place or None) if status else None
