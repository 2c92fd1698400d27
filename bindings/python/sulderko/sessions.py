"""A session that goes on from one command to the next."""
from __future__ import annotations

from sulderko.calls import Text, as_bytes, session


class Session:
    """A session of `ystep` over a grammar and tokens.

    It keeps its command lines, and runs all of them anew for each reply: a line costs what all
    lines before it cost together. A `Stepper` goes on from where it stands.
    """

    def __init__(self, grammar: Text, tokens: Text):
        """The start of a parse. A fault of the grammar or of the tokens is raised here."""
        self.grammar, self.tokens = as_bytes(grammar), as_bytes(tokens)
        self.lines: bytes = b""
        self.replies: bytes = session(self.grammar, self.tokens, b"")

    def command(self, line: Text) -> bytes:
        """The reply to a command line, as `ystep` gives it; after `quit` nothing is replied."""
        bare = as_bytes(line)
        if b"\n" in bare:
            raise ValueError("a command line has no newline inside")
        lines = self.lines + bare + b"\n"
        replies = session(self.grammar, self.tokens, lines)
        reply = replies[len(self.replies) :]
        self.lines, self.replies = lines, replies
        return reply

    def step(self, count: int = 1) -> bytes:
        """Makes at most so many steps."""
        return self.command(f"run {count}")

    def back(self, count: int = 1) -> bytes:
        """Takes at most so many steps and edits back."""
        return self.command(f"back {count}")

    def to(self, position: int) -> bytes:
        """Goes to a position, forward or back."""
        return self.command(f"to {position}")

    def show(self) -> bytes:
        """The configuration now."""
        return self.command("show")

    def tree(self) -> bytes:
        """The trees of the stack."""
        return self.command("tree")

    def unwind(self) -> bytes:
        """The rightmost derivation of an accepted parse."""
        return self.command("unwind")

    def insert(self, name: Text) -> bytes:
        """Puts a token before the upcoming ones."""
        return self.command(b"insert " + as_bytes(name))

    def drop(self) -> bytes:
        """Takes the next token out."""
        return self.command("drop")
