"""Messages for errors, as `ydebug errors --messages FILE --table y.msg` writes them,
for parsers of `ydriver`. Python 3.8 or later, no dependency.

    messages = read_messages(Path("y.msg").read_bytes(), digest_of(table_text))
    parser = Parser(table, error=lambda token, place: print(messages.of(parser, token)))

docs/FORMATS.md has the format.
"""
from __future__ import annotations

import re
from dataclasses import dataclass, field
from typing import Any, Callable, Dict, List, Optional, Union

from ydriver import Fault, Parser

SYMBOLS, STATES, LONGEST, MOST_NUMBER, MOST_NAMED = 4096, 16384, 16777216, 99, 20
NUMBER = re.compile(rb"0|[1-9][0-9]{0,9}")

# What people call the end and a newline, where no spelling of their own is there.
PLAIN = {"$end": "end of input", "'\\012'": "end of line"}

# Bytes; an entry of the stack, 0 for the token; None for the tokens that could come.
Piece = Union[bytes, int, None]
# What stands in the input for a symbol from its first to its last place; None for what it is called.
Show = Callable[[int, Any, Any], Optional[str]]


class _Refused(Exception):
    """Ends the reading; it does not leave this module."""


@dataclass
class Messages:
    """Messages, each of a state, and what symbols are called, where that isn't their names."""

    pieces: Dict[int, List[Piece]] = field(default_factory=dict)
    spelled: Dict[int, str] = field(default_factory=dict)

    def of(self, parser: Parser, token: int, place: Any = None, show: Optional[Show] = None) -> str:
        """The message for an error, in the call of that: it is that of the state which detects
        the error; without one it is `unexpected X, expected Y or Z`, with what symbols are called."""
        filling = _Filling(parser, self.spelled, token, place, show)
        pieces = self.pieces.get(parser.stack[-1].state)
        return filling.plain() if pieces is None else "".join(map(filling.piece, pieces))


@dataclass
class _Filling:
    """What a message is filled with."""

    parser: Parser
    spelled: Dict[int, str]
    token: int
    place: Any
    show: Optional[Show]

    def called(self, symbol: int) -> str:
        """What a symbol is called."""
        name = self.parser.table.names[symbol]
        return self.spelled.get(symbol, PLAIN.get(name, name))

    def symbol(self, symbol: int, first: Any, last: Any) -> str:
        """What stands in the input for a symbol, or what it is called."""
        text = self.show(symbol, first, last) if self.show else None
        return self.called(symbol) if text is None else text

    def entry(self, number: int) -> str:
        """The token, or an entry of the stack from the top; nothing where there is none."""
        if not number:
            return self.symbol(self.token, self.place, self.place)
        if number >= len(self.parser.stack):
            return ""
        entry = self.parser.stack[-number]
        return self.symbol(entry.symbol, entry.first, entry.last)

    def expected(self) -> str:
        """The first tokens that could come as a list, with dots where there are more."""
        names = [self.called(it) for it in self.parser.expected()]
        if len(names) > MOST_NAMED:
            return ", ".join(names[:MOST_NAMED]) + ", .."
        return " or ".join([", ".join(names[:-1]), names[-1]]) if len(names) > 1 else "".join(names)

    def plain(self) -> str:
        """What is said where there is no message of its own."""
        expected = f", expected {self.expected()}"
        can = expected if self.parser.expected() else "; no token can come"
        return f"unexpected {self.entry(0)}{can}"

    def piece(self, piece: Piece) -> str:
        """What a piece stands for."""
        if isinstance(piece, bytes):
            return piece.decode(errors="replace")
        return self.expected() if piece is None else self.entry(piece)


class _Reader:
    """The text, from the front."""

    def __init__(self, text: bytes) -> None:
        self.text, self.at, self.line = text, 0, 1
        self.messages = Messages()
        self.symbol = 0  # the one after the last that was spelled

    def sees(self, word: bytes) -> bool:
        return self.text.startswith(word, self.at)

    def take(self, word: bytes) -> None:
        if not self.sees(word):
            raise _Refused("something else is wanted here")
        self.at += len(word)

    def take_newline(self) -> None:
        self.take(b"\n")
        self.line += 1

    def take_number(self, most: int) -> int:
        """Reads a number up to `most`, without leading zeros."""
        found = NUMBER.match(self.text, self.at)
        if not found or self.text[found.end() : found.end() + 1].isdigit():
            raise _Refused("a number is wanted here")
        self.at = found.end()
        if int(found[0]) > most:
            raise _Refused("this number is out of range")
        return int(found[0])

    def take_text(self) -> bytes:
        """Reads bytes, which may have newlines among them."""
        length = self.take_number(LONGEST)
        self.take(b" ")
        text = self.text[self.at : self.at + length]
        if len(text) < length:
            raise _Refused("there are fewer bytes")
        self.at += length
        self.line += text.count(b"\n")
        return text

    def take_piece(self) -> Piece:
        if self.sees(b"t"):
            self.take(b"text ")
            return self.take_text()
        if self.sees(b"v"):
            self.take(b"value ")
            return self.take_number(MOST_NUMBER)
        self.take(b"expected")
        return None

    def take_spelling(self, last: Optional[int]) -> None:
        """Reads what a symbol is called, which is after the last one, and before all states."""
        symbol = self.take_number(SYMBOLS - 1)
        if last is not None or symbol < self.symbol:
            raise _Refused("this line is out of order")
        self.take(b" ")
        self.messages.spelled[symbol] = self.take_text().decode(errors="replace")
        self.symbol = symbol + 1
        self.take_newline()

    def take_line(self, last: Optional[int]) -> Optional[int]:
        """Reads a line, with the state before it, and says which state is that after it."""
        if self.sees(b"sp"):
            self.take(b"spelled ")
            self.take_spelling(last)
            return last
        if self.sees(b"s"):
            self.take(b"state ")
            state = self.take_number(STATES - 1)
            if last is not None and state <= last:
                raise _Refused("this line is out of order")
            self.take_newline()
            return state
        if last is None:
            raise _Refused("a state is wanted here")
        self.messages.pieces.setdefault(last, []).append(self.take_piece())
        self.take_newline()
        return last

    def take_all(self, digest: int) -> None:
        self.take(b"messages 1")
        self.take_newline()
        self.take(b"table ")
        if self.take_number(0xFFFFFFFF) != digest:
            raise _Refused("these messages were made for another table")
        self.take_newline()
        last: Optional[int] = None
        while not self.sees(b"en"):
            last = self.take_line(last)
        self.take(b"end")
        self.take_newline()
        if self.at < len(self.text):
            raise _Refused("there is more after the end")


def read_messages(text: bytes, digest: int) -> Union[Messages, Fault]:
    """Reads messages for the table with this digest (`ydriver.digest_of`), or says why they are
    refused."""
    reader = _Reader(text)
    try:
        reader.take_all(digest)
    except _Refused as refused:
        return Fault(reader.line, str(refused))
    return reader.messages
