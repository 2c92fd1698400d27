"""The program ystep over the module sulderko, but for its help: its scenarios run with it."""
import sys

import sulderko

# One byte more than a grammar may have shows that it is too long, even where it never ends.
GRAMMAR_BYTES = (1 << 20) + 1


class Ended(Exception):
    """Why the program ends: a message, and its status."""


def read(path, most=-1):
    """The bytes of a file, or the first of them."""
    try:
        with open(path, "rb") as file:
            return file.read(most)
    except OSError:
        raise Ended(f"cannot read {path}", 3) from None


def later(get, *words):
    """What a call gives, or why the program ends, which is told later; then it gives no bytes."""
    try:
        return get(*words), None
    except Ended as ended:
        return b"", ended


def commands():
    """All command lines."""
    try:
        return sys.stdin.buffer.read()
    except OSError:
        raise Ended("read fault", 3) from None


def replies(grammar, tokens):
    """What the session replies; a fault of the grammar or the tokens comes before one of a file."""
    text, unread = later(read, tokens)
    lines, unheard = (b"", None) if unread else later(commands)
    said = sulderko.session(grammar, text, lines)
    for ended in (unread, unheard):
        if ended:
            raise ended
    return said


def run(grammar, tokens):
    """Writes what the session replies."""
    try:
        said = replies(read(grammar, GRAMMAR_BYTES), tokens)
    except sulderko.Fault as fault:
        raise Ended(str(fault), 1) from None
    except sulderko.TooManySets:
        raise Ended("B1", 3) from None
    except MemoryError:
        raise Ended("no memory", 3) from None
    try:
        sys.stdout.buffer.write(said)
        sys.stdout.buffer.flush()
    except OSError:
        raise Ended("write fault", 3) from None


def main(words):
    """Runs the program; the answer is its status."""
    if len(words) != 2:
        sys.stderr.write("usage: ystep grammar tokens\n")
        return 2
    try:
        run(*words)
        return 0
    except Ended as ended:
        message, status = ended.args
        sys.stderr.buffer.write(f"ystep: {message}\n".encode(errors="surrogateescape"))
        return status


sys.exit(main(sys.argv[1:]))
