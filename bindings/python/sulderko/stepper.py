"""A parse behind a handle of the library."""
from __future__ import annotations

from ctypes import byref, c_char, c_size_t
from types import TracebackType
from typing import Any, Iterator, List, Optional, Type

from sulderko import library
from sulderko.answers import Kind, Mode, Move, Outlook, Place, Reason, Refused
from sulderko.calls import FIRST_ROOM, Text, as_bytes, called, given, look, symbol_names

MOST_FORMS = 1 << 24


class Stepper:
    """A parse that goes forward and back over a grammar and tokens.

    The library keeps it behind a handle, so that a step costs what a step costs. It is open until
    `close`, or to the end of a `with`. Iterated, it makes steps up to the last one. What is refused
    raises `Refused` and changes nothing. No two threads may use one at once.
    """

    def __init__(self, grammar: Text, tokens: Text):
        """The start of a parse. A fault of the grammar or of the tokens is raised here."""
        self.handle, self.grammar = library.Handle(), as_bytes(grammar)
        look(called("open", *given(grammar, tokens), byref(self.handle)), grammar, tokens)

    def __enter__(self) -> Stepper:
        """This parse."""
        return self

    def __exit__(
        self,
        kind: Optional[Type[BaseException]],
        error: Optional[BaseException],
        trace: Optional[TracebackType],
    ) -> None:
        """Closes it."""
        self.close()

    def __del__(self) -> None:
        """Closes it where nobody did."""
        if hasattr(self, "handle"):
            self.close()

    def __iter__(self) -> Iterator[Move]:
        """Each step, up to the one after which none follows."""
        while self.place().mode in (Mode.RUNNING, Mode.POPPING):
            yield self.step()

    def close(self) -> None:
        """Gives its memory back; each later call raises `Refused`."""
        library.library().sulderko_close(byref(self.handle))

    def asked(self, name: str, *words: Any) -> None:
        """A call on the handle, which raises what is refused."""
        status = called(name, byref(self.handle), *words)
        if status:
            raise Refused(Reason(status))

    def moved(self, name: str, *words: Any) -> Move:
        """A call that makes a move."""
        made = library.Move()
        self.asked(name, *words, byref(made))
        return Move(Kind(made.kind), made.subject)

    def text(self, name: str, room: int) -> bytes:
        """A text, of which so much is written at first, and all of it then."""
        out, length = (c_char * room)(), c_size_t()
        self.asked(name, out, room, byref(length))
        return out[: length.value] if length.value <= room else self.text(name, length.value)

    def step(self) -> Move:
        """One step."""
        return self.moved("step")

    def back(self) -> Move:
        """One step or edit back: what is undone."""
        return self.moved("back")

    def insert(self, name: Text) -> Move:
        """Puts a token before the upcoming ones."""
        token = as_bytes(name)
        return self.moved("insert", token, len(token))

    def drop(self) -> Move:
        """Takes the next token out."""
        return self.moved("drop")

    def to(self, position: int) -> None:
        """Goes to a position. Where a step is refused, those before it stand."""
        self.asked("to", position)

    def place(self) -> Place:
        """Where the parse stands."""
        found = library.Place()
        self.asked("state", byref(found))
        names = "position", "state", "height", "left", "counter", "errors"
        return Place(Mode(found.mode), *(getattr(found, it) for it in names))

    def outlooks(self) -> List[Outlook]:
        """What is known of each token as the next one, by the numbers of the table. A token that
        is inserted now is shifted after reductions alone, or it isn't; `$end`, number 0, is
        accepted so where no token is upcoming."""
        return [Outlook(it) for it in self.text("expected", FIRST_ROOM)]

    def expected(self) -> List[bytes]:
        """The names of the tokens that could come next; those for which the limit of positions
        comes before that shows are left out. The names are read anew from the table each time."""
        known = zip(symbol_names(self.grammar), self.outlooks())
        return [name for name, outlook in known if outlook == Outlook.EXPECTED]

    def show(self) -> bytes:
        """The configuration, as `ystep` replies to `show`."""
        return self.text("show", FIRST_ROOM)

    def tree(self) -> bytes:
        """The trees of the stack, as `ystep` replies to `tree`."""
        return self.text("tree", FIRST_ROOM)

    def unwind(self, room: int = MOST_FORMS) -> bytes:
        """The rightmost derivation of an accepted parse, which then stands at its start.

        A text of more bytes than `room` raises `ValueError`, and the parse is at its start too.
        """
        out, length = (c_char * room)(), c_size_t()
        self.asked("unwind", out, room, byref(length))
        if length.value > room:
            raise ValueError(f"the forms take {length.value} bytes")
        return out[: length.value]
