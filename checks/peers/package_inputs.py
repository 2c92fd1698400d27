"""Texts that a program reads, as they come and spoiled, and what two builds of it make of them."""
import random
import re
import signal
import subprocess
import tempfile
from concurrent.futures import ThreadPoolExecutor
from dataclasses import dataclass
from functools import partial
from pathlib import Path
from typing import Callable, NamedTuple

from checks.peers.package_build import Unbuilt

TOKEN = re.compile(rb"[A-Za-z_]\w*|\d+|\s+|.", re.S)
BYTE = re.compile(rb".", re.S)
# The name that a program finds a text by.
INPUT = "input"
MOST_BYTES, MOST_MEMORY = 1 << 23, 1 << 30
# Seconds of a processor for a text as it comes, and for a spoiled one.
PATIENCE, SHORT = 20, 4
# What a program does with memory that it never set, or with where its stack lies, shows by these.
STIRRED = {"MALLOC_PERTURB_": "165", "STIRRED": "x" * 3000}


class Outcome(NamedTuple):
    """What a program comes to."""

    status: object
    out: bytes = b""
    err: bytes = b""

    def told(self):
        """The outcome, for people: the ends of what was written."""
        parts = [f"status {self.status}"]
        for name, text in (("out", self.out), ("err", self.err)):
            parts.append(f"{name}: {text[-600:].decode(errors='replace').rstrip()}")
        return "\n".join(parts)


@dataclass(frozen=True)
class Design:
    """A difference that `ycc` makes by design: the word for it, why it is so, and whether two
    outcomes, ycc's and the peer's, differ so."""

    word: str
    why: str
    fits: Callable


@dataclass(frozen=True)
class Reader:
    """A program that reads a text: its words, in which `input` is the text's file; where there is
    no such word the text comes on standard input."""

    program: str
    words: tuple
    texts: Callable
    beside: tuple = ()
    designs: tuple = ()

    @property
    def name(self):
        """The program with its words."""
        return " ".join([Path(self.program).name, *self.words])


def limited(seconds):
    """The words in front of a program that say what it may take."""
    limits = {"cpu": f"{seconds}:{seconds + 1}", "fsize": MOST_BYTES, "as": MOST_MEMORY, "core": 0}
    return ["prlimit", *(f"--{name}={most}" for name, most in limits.items())]


def ended(status, out, err):
    """The outcome of a process; where it was stopped it says nothing of what it wrote till then."""
    if status in (-signal.SIGXCPU, -signal.SIGKILL):
        return Outcome("too long")
    if status == -signal.SIGXFSZ:
        return Outcome("too much")
    return Outcome(status, out, err)


def called(reader, build, folder, seconds, more):
    """One call of a program in a folder where it is linked, and its text is."""
    with open(folder / "out", "wb") as out, open(folder / "err", "wb") as err:
        with open(folder / INPUT, "rb") as text:
            ran = subprocess.run(
                [*limited(seconds), f"./{Path(reader.program).name}", *reader.words],
                cwd=folder,
                env={**build.environment(), **more},
                stdin=subprocess.DEVNULL if INPUT in reader.words else text,
                stdout=out,
                stderr=err,
                timeout=10 * seconds,
            )
    return ran.returncode


def outcome(reader, build, text, seconds, **more):
    """What a program makes of a text, in a new folder."""
    with tempfile.TemporaryDirectory() as room:
        folder = Path(room)
        (folder / INPUT).write_bytes(text)
        for path in (reader.program, *reader.beside):
            (folder / Path(path).name).symlink_to(build.folder / path)
        try:
            status = called(reader, build, folder, seconds, more)
        except subprocess.TimeoutExpired:
            return Outcome("too long")
        return ended(status, *((folder / it).read_bytes() for it in ("out", "err")))


def spoil(text, texts, rng):
    """A text with one byte or token dropped, doubled, swapped with the next, or replaced by one of
    another text."""
    kind = rng.choice((BYTE, TOKEN))
    pieces = kind.findall(text) or [b""]
    at = rng.randrange(len(pieces))
    rest = pieces[at:]
    changed = rng.choice(
        (
            rest[1:],
            [rest[0], *rest],
            [*rest[1:2], rest[0], *rest[2:]],
            [rng.choice(kind.findall(rng.choice(texts)) or [b""]), *rest[1:]],
        )
    )
    return b"".join([*pieces[:at], *changed])


def is_unstable(reader, build, text, first):
    """Whether a program says something else when memory that it never set is different."""
    return any(outcome(reader, build, text, SHORT, **more) != first for more in ({}, STIRRED))


class Case(NamedTuple):
    """A text for a program, and for how long it may be read."""

    name: str
    text: bytes
    seconds: int


def cases_of(reader, texts, count, seed):
    """The texts as they come, and some of them spoiled."""
    yield from (Case(f"text {at}", text, PATIENCE) for at, text in enumerate(texts))
    rng = random.Random(f"{seed} {reader.name}")
    for at in range(count):
        yield Case(f"spoiled text {at}", spoil(rng.choice(texts), texts, rng), SHORT)


class Verdict(NamedTuple):
    """A word for two outcomes of a case."""

    word: str
    case: Case
    ours: Outcome
    peer: Outcome

    @property
    def complains(self):
        """Whether the peer complains of the text."""
        return self.peer.status != 0 or self.peer.err != b""


def judged(reader, ours, peer, case):
    """Two builds over a text."""
    one, other = (outcome(reader, it, case.text, case.seconds) for it in (ours, peer))
    if one == other:
        return Verdict("alike", case, one, other)
    if is_unstable(reader, peer, case.text, other):
        return Verdict("unstable", case, one, other)
    fitting = (it.word for it in reader.designs if it.fits(one, other))
    return Verdict(next(fitting, "differ"), case, one, other)


def compared(reader, ours, peer, asked):
    """Two builds over the texts of a program, as they come and spoiled."""
    texts = reader.texts(peer.folder)
    if not texts:
        raise Unbuilt(f"{reader.name} has no texts")
    cases = cases_of(reader, texts, asked.inputs, asked.seed)
    with ThreadPoolExecutor(asked.jobs) as pool:
        return list(pool.map(partial(judged, reader, ours, peer), cases))
