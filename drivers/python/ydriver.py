"""A driver for the tables that `yacc` writes (y.tab). A table is read once, and any number of
parsers take tokens by it, one at a time. Python 3.8 or later, no dependency.

    table = read_table(Path("y.tab").read_bytes())
    parser = Parser(table, reduce=..)
    parser.push("NUM", 2)
    if parser.finish() is Result.ACCEPTED: print(parser.value)

docs/FORMATS.md has the format of a table, and what the steps of a parse are.
"""
from __future__ import annotations

import re
from binascii import crc32
from dataclasses import dataclass, field
from enum import Enum
from typing import Any, Callable, Dict, List, Optional, Tuple, Union

END, ERROR = 0, 1
# The limits of a grammar, and so of its table.
SYMBOLS, NUMBERS, RULES, LENGTH, STATES = 4096, 32767, 8192, 255, 16384
# The most reductions that the trial of a token makes, and those of all tokens together.
FOR_A_TOKEN, FOR_ALL = 100_000, 10_000_000
NUMBER = re.compile(rb"0|[1-9][0-9]{0,6}")
NAME = re.compile(rb"[ -~]+")

Value = Any
Place = Any
# What a cell says: ("s", state), ("r", rule) or ("acc", 0).
Action = Tuple[str, int]


class Kind(Enum):
    """A step, in the words of `ystep`."""

    SHIFT = "shift"
    REDUCE = "reduce"
    ACCEPT = "accept"
    DETECT = "detect"
    POP = "pop"
    SHIFT_ERROR = "shift error"
    DISCARD = "discard"
    FAIL = "fail"


class Result(Enum):
    """What became of a token."""

    MORE = "more"  # it is taken, and the next one can come
    ACCEPTED = "accepted"  # the input is accepted, maybe after errors
    FAILED = "failed"  # an error that recovery could not get past
    NO_TOKEN = "no token"  # it is no token that an input can have; nothing was done
    LIMIT = "limit"  # more steps than the limit, and it is not taken yet
    BROKEN = "broken"  # the table has no state for what it says itself


class Mode(Enum):
    """Where a parse stands."""

    RUNNING = "running"
    POPPING = "popping"
    ACCEPTED = "accepted"
    FAILED = "failed"


@dataclass(frozen=True)
class Fault:
    """Why a table is refused. The line counts from 1; it is 0 where the digest is another."""

    line: int
    what: str

    def __str__(self) -> str:
        return f"line {self.line}: {self.what}" if self.line else self.what


@dataclass
class Table:
    """A table. Parsers only read it."""

    names: List[str] = field(default_factory=list)
    # the number of each token; there are as many tokens as numbers, and they come first
    numbers: List[int] = field(default_factory=list)
    # the left side and the length of each rule
    rules: List[Tuple[int, int]] = field(default_factory=list)
    states: int = 0
    defaults: Dict[int, int] = field(default_factory=dict)
    actions: Dict[Tuple[int, int], Action] = field(default_factory=dict)
    gotos: Dict[Tuple[int, int], int] = field(default_factory=dict)

    def find(self, name: str) -> Optional[int]:
        """The symbol of this printed name (NUM, '+')."""
        return self.names.index(name) if name in self.names else None

    def token(self, number: int) -> Optional[int]:
        """The token of this number, as an input's lexer hands them out."""
        return self.numbers.index(number) if number in self.numbers else None

    def action(self, state: int, token: int) -> Optional[Action]:
        rule = self.defaults.get(state)
        return self.actions.get((state, token)) if rule is None else ("r", rule)


class _Refused(Exception):
    """Ends the reading of a table; it does not leave this module."""


class _Reader:
    """The text of a table, from the front."""

    def __init__(self, text: bytes) -> None:
        self.text, self.at, self.line = text, 0, 1
        self.table = Table()

    def take(self, word: bytes) -> None:
        if not self.text.startswith(word, self.at):
            raise _Refused("something else is wanted here")
        self.at += len(word)

    def sees(self, byte: bytes) -> bool:
        return self.text[self.at : self.at + 1] == byte

    def take_newline(self) -> None:
        self.take(b"\n")
        self.line += 1

    def take_number(self, least: int, most: int) -> int:
        """Reads a number from `least` to `most`, without leading zeros."""
        found = NUMBER.match(self.text, self.at)
        if not found or self.text[found.end() : found.end() + 1].isdigit():
            raise _Refused("a number is wanted here")
        if not least <= int(found[0]) <= most:
            raise _Refused("this number is out of range")
        self.at = found.end()
        return int(found[0])

    def take_count(self, word: bytes, least: int, most: int) -> int:
        self.take(word)
        count = self.take_number(least, most)
        self.take_newline()
        return count

    def take_symbol(self, symbol: int) -> None:
        """Tokens come first, the end and `error` first among them."""
        self.take_number(symbol, symbol)
        self.take(b" ")
        if symbol <= ERROR or self.sees(b"t"):
            if len(self.table.numbers) < symbol:
                raise _Refused("a token stands after a nonterminal")
            self.take(b"t ")
            self.table.numbers.append(self.take_number(0, NUMBERS))
        else:
            self.take(b"n -")
        self.take(b" ")
        name = NAME.match(self.text, self.at)
        if not name:
            raise _Refused("a name is wanted here")
        self.at = name.end()
        self.table.names.append(name[0].decode("ascii"))
        self.take_newline()

    def take_rule(self, number: int) -> None:
        self.take_number(number, number)
        self.take(b" ")
        left = self.take_number(len(self.table.numbers), len(self.table.names) - 1)
        self.take(b" ")
        self.table.rules.append((left, self.take_number(0, LENGTH)))
        self.take_newline()

    def take_by(self) -> int:
        return self.take_number(1, len(self.table.rules) - 1)

    def take_action(self, symbol: int) -> Action:
        if symbol == END and self.sees(b"a"):
            self.take(b"acc")
            return "acc", 0
        if self.sees(b"r"):
            self.take(b"r ")
            return "r", self.take_by()
        if symbol == END:
            raise _Refused("the end is not shifted")
        self.take(b"s ")
        return "s", self.take_number(0, self.table.states - 1)

    def take_cell(self, state: int, letter: bytes) -> int:
        """Reads the symbol of a line, and what stands after it."""
        table, tokens = self.table, len(self.table.numbers)
        self.take(b" ")
        if letter == b"d":
            table.defaults[state] = self.take_by()
            return 0
        span = (0, tokens - 1) if letter == b"a" else (tokens, len(table.names) - 1)
        symbol = self.take_number(*span)
        self.take(b" ")
        if letter == b"a":
            table.actions[state, symbol] = self.take_action(symbol)
        else:
            table.gotos[state, symbol] = self.take_number(0, table.states - 1)
        return symbol

    def take_line(self, last: Tuple[int, bytes, int]) -> Tuple[int, bytes, int]:
        """Reads a line of a state, which comes after another one."""
        letter = self.text[self.at : self.at + 1]
        if letter not in (b"a", b"d", b"g"):
            raise _Refused("a line of a state, or the end, is wanted here")
        self.take(letter + b" ")
        state = self.take_number(0, self.table.states - 1)
        read = state, letter, self.take_cell(state, letter)
        if not _is_after(last, read):
            raise _Refused("this line is out of order")
        self.take_newline()
        return read

    def take_table(self) -> None:
        self.take(b"table 2")
        self.take_newline()
        symbols = self.take_count(b"symbols ", 4, SYMBOLS)
        for symbol in range(symbols):
            self.take_symbol(symbol)
        if len(self.table.numbers) == symbols:
            raise _Refused("there is no nonterminal")
        for number in range(self.take_count(b"rules ", 2, RULES)):
            self.take_rule(number)
        self.table.states = self.take_count(b"states ", 1, STATES)
        last = 0, b"", 0
        while not self.sees(b"e"):
            last = self.take_line(last)
        self.take(b"end")
        self.take_newline()
        if self.at < len(self.text):
            raise _Refused("there is more after the end")


def _is_after(last: Tuple[int, bytes, int], read: Tuple[int, bytes, int]) -> bool:
    """Lines go by states; in one, `d` alone or `a` by symbols, and then `g` by symbols."""
    if read[0] != last[0] or not last[1]:
        return read[0] >= last[0]
    if read[1] != last[1]:
        return read[1] == b"g"
    return read[1] != b"d" and read[2] > last[2]


def digest_of(text: bytes) -> int:
    """The digest of a table: the CRC-32 of its text, as gzip and zip have it."""
    return crc32(text)


def read_table(text: bytes, digest: Optional[int] = None) -> Union[Table, Fault]:
    """Reads a table, or says why it is refused. Where a digest is given, a table with another one
    is refused too: so the numbers of rules are those of the module that has it as its TABLE_DIGEST
    (`ydebug rules --python`)."""
    reader = _Reader(text)
    try:
        reader.take_table()
    except _Refused as refused:
        return Fault(reader.line, str(refused))
    if digest is not None and digest_of(text) != digest:
        return Fault(0, "the names of its rules were made for another table")
    return reader.table


@dataclass(frozen=True)
class Entry:
    """An entry of the stack. Its places are those of its first and its last token, or None where it
    has none; those of `error` go from the first that was popped to the token that couldn't come."""

    state: int
    symbol: int
    value: Value = None
    first: Place = None
    last: Place = None


@dataclass(frozen=True)
class _Ahead:
    """The token ahead."""

    token: int
    value: Value
    place: Place


@dataclass
class _Trial:
    """Tokens that are tried over a stack of states."""

    table: Table
    states: List[int]
    # how many more reductions may be made
    left: int = FOR_ALL

    def takes(self, token: int) -> bool:
        """Whether a token can come."""
        below, above = len(self.states), []  # type: int, List[int]
        for _ in range(min(FOR_A_TOKEN, self.left) + 1):
            action = self.table.action(above[-1] if above else self.states[below - 1], token)
            if action is None or action[0] != "r":
                return action is not None
            self.left -= 1
            left, length = self.table.rules[action[1]]
            below -= max(length - len(above), 0)
            del above[max(len(above) - length, 0) :]
            state = above[-1] if above else self.states[below - 1] if below > 0 else -1
            goto = self.table.gotos.get((state, left))
            if goto is None:
                return False
            above.append(goto)
        return False


@dataclass
class Parser:
    """A parse. What a caller wants to be told are calls, each of which may be left out; where one
    of them raises, its step is not made."""

    table: Table
    # (token, value, place): the value of a token that goes on the stack
    shift: Optional[Callable[[int, Value, Place], Value]] = None
    # (rule, left side, entries): the value of the left side that replaces the entries
    reduce: Optional[Callable[[int, int, List[Entry]], Value]] = None
    # (token, place): an error is reported, this token cannot come; `expected` says which can
    error: Optional[Callable[[int, Place], None]] = None
    # (symbol, value, place): an entry or a token is given up, and its value with it
    drop: Optional[Callable[[int, Value, Place], None]] = None
    # (kind, number): a step was made, with its symbol or its rule
    step: Optional[Callable[[Kind, int], None]] = None
    # the most steps with one token ahead
    limit: int = 1_000_000
    # the bottom has state 0
    stack: List[Entry] = field(default_factory=lambda: [Entry(0, END)])
    mode: Mode = Mode.RUNNING
    # 3 after an error, and one less for each token that is shifted
    counter: int = 0
    # the errors that were reported
    errors: int = 0
    # the steps since the last token was taken
    spent: int = 0
    # where what recovery took begins
    lost: Place = None
    # the stack as it was when the token ahead came: so many entries are there still, and above them
    # these states were, the last one lowest
    kept: int = 1
    lost_states: List[int] = field(default_factory=list)

    @property
    def value(self) -> Value:
        """The value of an accepted parse."""
        return self.stack[1].value if self.mode is Mode.ACCEPTED else None

    def push(self, token: Union[int, str, None], value: Value = None, place: Place = None) -> Result:
        """Takes a token, named or by its symbol: makes steps up to the one that takes it, and then
        the reductions that need no token ahead."""
        symbol = self.table.find(token) if isinstance(token, str) else token
        if symbol is None or not ERROR < symbol < len(self.table.numbers):
            return Result.NO_TOKEN
        return self._push(_Ahead(symbol, value, place))

    def finish(self, place: Place = None) -> Result:
        """Ends the input."""
        return self._push(_Ahead(END, None, place))

    def expected(self) -> List[int]:
        """The tokens that can come, by number: each is tried on the stack as it was after the last
        token that was taken, so none is listed that would be an error, also where the reductions
        that a wrong token allowed are made already. It is for the call of an error, and for the
        time between two tokens. A token that takes over 100,000 reductions counts as one that
        cannot come."""
        states = [entry.state for entry in self.stack[: self.kept]] + self.lost_states[::-1]
        trial = _Trial(self.table, states)
        return [it for it in range(len(self.table.numbers)) if it != ERROR and trial.takes(it)]

    def _push(self, ahead: _Ahead) -> Result:
        result: Optional[Result] = self._ended()
        while result is None and self.spent < self.limit:
            result = self._step(ahead)
        if result is Result.MORE:
            self.spent = 0
            self._settle()
            self._keep_all()
        return Result.LIMIT if result is None else result

    def _ended(self) -> Optional[Result]:
        ends = {Mode.ACCEPTED: Result.ACCEPTED, Mode.FAILED: Result.FAILED}
        return ends.get(self.mode)

    def _settle(self) -> None:
        """Makes the reductions that need no token ahead."""
        result: Optional[Result] = None
        while result is None and self.spent < self.limit:
            rule = self.table.defaults.get(self.stack[-1].state)
            result = Result.MORE if rule is None else self._reduce(rule)

    def _keep_all(self) -> None:
        """The stack is what it is after a token."""
        self.kept = len(self.stack)
        self.lost_states.clear()

    def _keep_states(self, below: int) -> None:
        """Before a reduction takes entries off: keeps the states that were there when the token
        came."""
        if below < self.kept:
            self.lost_states += [it.state for it in reversed(self.stack[below : self.kept])]
            self.kept = below

    def _tell(self, kind: Kind, number: int) -> None:
        self.spent += 1
        if self.step:
            self.step(kind, number)

    def _step(self, ahead: _Ahead) -> Optional[Result]:
        """One step: what became of the token ahead, or None where it is there still."""
        if self.mode is Mode.POPPING:
            return self._pop(ahead)
        action = self.table.action(self.stack[-1].state, ahead.token)
        if action is None:
            return self._detect(ahead) if self.counter < 3 else self._discard(ahead)
        if action[0] == "r":
            return self._reduce(action[1])
        return self._shift(ahead, action[1]) if action[0] == "s" else self._accept()

    def _shift(self, ahead: _Ahead, state: int) -> Result:
        value = ahead.value
        if self.shift:
            value = self.shift(ahead.token, value, ahead.place)
        self.stack.append(Entry(state, ahead.token, value, ahead.place, ahead.place))
        self.counter = max(self.counter - 1, 0)
        self._tell(Kind.SHIFT, ahead.token)
        return Result.MORE

    def _reduce(self, number: int) -> Optional[Result]:
        left, length = self.table.rules[number]
        below = len(self.stack) - length
        state = self.table.gotos.get((self.stack[below - 1].state, left)) if below > 0 else None
        if state is None:
            return Result.BROKEN
        self._keep_states(below)
        entries = self.stack[below:]
        value = entries[0].value if entries else None
        if self.reduce:
            value = self.reduce(number, left, entries)
        first = next((it.first for it in entries if it.first is not None), None)
        last = next((it.last for it in reversed(entries) if it.last is not None), None)
        self.stack[below:] = [Entry(state, left, value, first, last)]
        self._tell(Kind.REDUCE, number)
        return None

    def _accept(self) -> Result:
        if len(self.stack) != 2:
            return Result.BROKEN
        self.mode = Mode.ACCEPTED
        self._tell(Kind.ACCEPT, END)
        return Result.ACCEPTED

    def _detect(self, ahead: _Ahead) -> None:
        if self.counter == 0:
            self.errors += 1
            if self.error:
                self.error(ahead.token, ahead.place)
        self.counter, self.mode, self.lost = 3, Mode.POPPING, ahead.place
        self._tell(Kind.DETECT, ahead.token)

    def _discard(self, ahead: _Ahead) -> Result:
        if ahead.token == END:
            return self._fail()
        self._drop(ahead.token, ahead.value, ahead.place)
        self._tell(Kind.DISCARD, ahead.token)
        return Result.MORE

    def _fail(self) -> Result:
        self.mode = Mode.FAILED
        self._tell(Kind.FAIL, END)
        return Result.FAILED

    def _pop(self, ahead: _Ahead) -> Optional[Result]:
        action = self.table.action(self.stack[-1].state, ERROR)
        if action and action[0] == "s":
            self.stack.append(Entry(action[1], ERROR, None, self.lost, ahead.place))
            self.mode = Mode.RUNNING
            self._tell(Kind.SHIFT_ERROR, ERROR)
            return None
        if len(self.stack) == 1:
            return self._fail()
        top = self.stack.pop()
        self._keep_all()
        self.lost = self.lost if top.first is None else top.first
        self._drop(top.symbol, top.value, top.first)
        self._tell(Kind.POP, top.symbol)
        return None

    def _drop(self, symbol: int, value: Value, place: Place) -> None:
        if self.drop:
            self.drop(symbol, value, place)
