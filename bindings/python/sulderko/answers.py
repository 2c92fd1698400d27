"""What the library answers."""
from __future__ import annotations

from dataclasses import dataclass
from enum import IntEnum
from typing import ClassVar, List, Optional, Tuple


class Fault(Exception):
    """A fault of a grammar or of tokens.

    `code` is that of docs/FAULTS.md, as `G5` or `K1`. Of a grammar, `line` is its line, counted
    from 1, and `offset` how many bytes stand before what is at fault. Of tokens, `place` says which
    of them is at fault, counted from 1. What a fault doesn't have is None.
    """

    def __init__(
        self,
        code: str,
        line: Optional[int] = None,
        offset: Optional[int] = None,
        place: Optional[int] = None,
    ):
        super().__init__(code, line, offset, place)
        self.code, self.line, self.offset, self.place = code, line, offset, place

    def __str__(self) -> str:
        """The words in which `ystep` says it."""
        if self.line is not None:
            return f"{self.code} at line {self.line}"
        return self.code if self.place is None else f"{self.code} at token {self.place}"


class TooManySets(Exception):
    """The grammar has more than 16,384 item sets."""


class Outcome(IntEnum):
    """What a verdict says."""

    ACCEPTED = 1
    REJECTED = 2
    LIMIT = 3


@dataclass(frozen=True)
class Code:
    """The arrays of a parser in C, by the names that `ycc` gives them; docs/LIBRARY.md says how
    they are read."""

    ARRAYS: ClassVar[Tuple[str, ...]] = (
        *"row check value usual set bits grow gcheck gvalue target stos len lhs translate".split(),
    )

    states: int
    rules: int
    tokens: int
    span: int
    row: List[int]
    check: List[int]
    value: List[int]
    usual: List[int]
    set: List[int]
    bits: List[int]
    grow: List[int]
    gcheck: List[int]
    gvalue: List[int]
    target: List[int]
    stos: List[int]
    len: List[int]
    lhs: List[int]
    translate: List[int]


@dataclass(frozen=True)
class Verdict:
    """Whether tokens are a sentence of a grammar.

    They are accepted after `steps` steps, or an error is detected at the token `token`, counted
    from 1, the end after the last one; or neither within 1,000,000 steps. Where `exact` is true, no
    cell of the tables has a choice: then no sentence is rejected, and none begins with the tokens
    up to the rejected one.
    """

    outcome: Outcome
    exact: bool
    steps: Optional[int] = None
    token: Optional[int] = None


@dataclass(frozen=True)
class Conflicts:
    """How many conflicts the cells of a grammar's tables count."""

    shift_reduce: int
    reduce_reduce: int


class Kind(IntEnum):
    """The kind of a move."""

    SHIFT = 1
    REDUCE = 2
    ACCEPT = 3
    DETECT = 4
    POP = 5
    SHIFT_ERROR = 6
    DISCARD = 7
    FAIL = 8
    INSERT = 9
    DROP = 10


@dataclass(frozen=True)
class Move:
    """A step or an edit: its kind, and the number of its symbol or rule; 0 where it has none."""

    kind: Kind
    subject: int


class Outlook(IntEnum):
    """What is known of a token that might come next: it can't come; it could come; or the limit of
    positions comes before that shows."""

    UNEXPECTED = 0
    EXPECTED = 1
    UNTOLD = 2


class Mode(IntEnum):
    """What a parse is doing."""

    RUNNING = 1
    POPPING = 2
    ACCEPTED = 3
    FAILED = 4


@dataclass(frozen=True)
class Place:
    """Where a parse stands: its mode, how many steps and edits stand, the state on top of its
    stack, how many symbols that has, how many tokens are upcoming, the recovery counter, and how
    many errors were reported."""

    mode: Mode
    position: int
    state: int
    height: int
    left: int
    counter: int
    errors: int


class Reason(IntEnum):
    """Why a move is refused."""

    HALTED = 5
    AT_LIMIT = 6
    AT_START = 7
    NO_TOKEN = 8
    BAD_TOKEN = 9
    NOT_ACCEPTED = 10
    HAD_ERROR = 11
    CLOSED = 12


class Refused(Exception):
    """A call of a parse is refused; `reason` says why."""

    def __init__(self, reason: Reason):
        super().__init__(reason)
        self.reason = reason

    def __str__(self) -> str:
        """The reason in words."""
        return self.reason.name.lower().replace("_", " ")
