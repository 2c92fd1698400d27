"""Compares what the stepper says of spoiled grammar files with the second reader.

    faults [ystep=PATH] [--count N] [FILE..]

Of each FILE, or of each example's grammar file, it makes N (2,000) of each kind: cut off, at every
97th byte and around the file again as long as there are new places; with bytes, words or lines
changed; with declarations put in front. The draws are the same in each run. Every difference is
shown, and its file is kept; the last line is `N passed, M failed`.
"""
import os
import random
import re
import tempfile
from collections import Counter
from concurrent.futures import ThreadPoolExecutor
from pathlib import Path

from checks.shared.arguments import asked
from checks.shared.places import EXAMPLES
from checks.shared.reader import answer
from checks.shared.running import ran
from checks.shared.tally import Tally

STRIDE = 97
# Bytes that begin, end or join something, beside all others.
DRAWN = [bytes([it]) for it in b"%{}'\"\\/*:;|<>,. \n\t0178axe_$@\x00\x7f\xff"]
PIECES = [b"%%", b"%{", b"%}", b"/*", b"*/", b"//", b"%prec", b"%left", b"%token", b"%start"]
PIECES += [b"%type <t>", b"error", b"'a'", b"'\\n'", b"'\\0'", b"{ }", b" 256", b" 0", b" 40000"]

DIRECTIVES = [b"%token", b"%token", b"%left", b"%right", b"%nonassoc", b"%start", b"%type <t>"]
NUMBERS = [b"", b"", b"", b" 97", b" 257", b" 258", b" 0256", b" 32767", b" 32768", b" 0"]


def cuts(text, count, _):
    """Beginnings of a file, each once."""
    places = [at for first in range(STRIDE) for at in range(first, len(text) + 1, STRIDE)]
    return [text[:at] for at in places[:count]]


def with_bytes_changed(text, rng):
    """Some bytes changed."""
    for _ in range(rng.randint(1, 3)):
        at, length = rng.randrange(len(text) + 1), rng.choice([0, 1, 1, 2])
        new = rng.choice([rng.choice(DRAWN), rng.choice(PIECES), bytes([rng.randrange(256)]), b""])
        text = text[:at] + new + text[at + length :]
    return text


def with_word_changed(text, rng):
    """A word in place of another, or in front of it."""
    found = list(re.finditer(rb"\S+", text))
    if not found:
        return text
    place, new = rng.choice(found), rng.choice([rng.choice(found)[0], rng.choice(PIECES)])
    rest = rng.choice([place.start(), place.end()])
    return text[: place.start()] + new + b" " + text[rest:]


def with_line_moved(text, rng):
    """A line taken out or left, and put in somewhere."""
    lines = text.splitlines(keepends=True) or [b""]
    line = rng.choice(lines)
    if rng.random() < 0.5:
        lines.remove(line)
    lines.insert(rng.randint(0, len(lines)), line)
    return b"".join(lines)


def with_words_changed(text, rng):
    """Some words or lines changed."""
    for _ in range(rng.randint(1, 2)):
        text = rng.choice([with_word_changed, with_line_moved])(text, rng)
    return text


def with_declarations(text, rng):
    """Some lines of declarations in front, of names and literals of the file, and a %prec."""
    names = sorted(set(re.findall(rb"[A-Za-z_.][\w.]*|'[^'\\]'", text))) or [b"a"]
    lines = []
    for _ in range(rng.randint(1, 3)):
        drawn = [rng.choice(names) + rng.choice(NUMBERS) for _ in range(rng.randint(1, 3))]
        lines.append(b" ".join([rng.choice(DIRECTIVES), *drawn]) + b"\n")
    if rng.random() < 0.3:
        at = text.rfind(b"\n", 0, rng.randrange(len(text) + 1)) + 1
        text = text[:at] + b"%prec " + rng.choice(names) + b"\n" + text[at:]
    return b"".join(lines) + text


def drawn(change):
    """So many texts with a change."""
    return lambda text, count, rng: [change(text, rng) for _ in range(count)]


KINDS = {
    "cut off": cuts,
    "bytes changed": drawn(with_bytes_changed),
    "words or lines changed": drawn(with_words_changed),
    "declarations put in": drawn(with_declarations),
}


def said_by(ystep, text):
    """What the stepper says of a grammar file, or that it accepts it."""
    with tempfile.NamedTemporaryFile() as file:
        file.write(text)
        file.flush()
        made = ran([ystep, file.name, os.devnull])
    message = made.stderr.removeprefix("ystep: ").rstrip("\n")
    ended = made.returncode, made.stdout, message
    if ended == (0, "", ""):
        return "accepted"
    return message if ended[:2] == (1, "") else str(ended)


def kept(text, ours, theirs):
    """Keeps a text that differs, and says why."""
    file = Path(tempfile.mkdtemp()) / "grammar.y"
    file.write_bytes(text)
    return f"{file}: {ours} by the page, {theirs} by the stepper\n"


def compare(ystep, name, texts, tally):
    """Compares what is said of some texts."""
    with ThreadPoolExecutor(os.cpu_count()) as pool:
        made = list(pool.map(lambda it: said_by(ystep, it), texts))
    wanted = [answer(it) for it in texts]
    for it in zip(texts, wanted, made):
        tally.take(name, [kept(*it)] if it[1] != it[2] else [])
    codes = sorted(Counter(it.split()[0] for it in wanted).items(), key=lambda it: len(it[0]))
    said = ", ".join(f"{code} {number}" for code, number in codes)
    print(f"{name}: {len(texts)} compared ({said})", flush=True)


def main(words):
    """Compares faults of spoiled files."""
    given, rng, tally = asked(__doc__, words, ("ystep",), count=2_000), random.Random(1), Tally()
    for file in map(Path, given.words or sorted(EXAMPLES.glob("*/grammar.y"))):
        text = file.read_bytes()
        for kind, make in KINDS.items():
            name = f"{'/'.join(file.parts[-2:])}, {kind}"
            compare(given.programs["ystep"], name, make(text, given.count, rng), tally)
    return tally.end()
