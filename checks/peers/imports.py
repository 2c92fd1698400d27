"""Imports grammars of bison and byacc that others wrote, and compares their tables with bison's.

    imports [ydebug=PATH] [yacc=PATH] [FILE.. | PACKAGE..]

A PACKAGE is one of Debian's source packages, which `apt-get source` fetches to a folder that is
removed again; without a word some small ones are taken. Each grammar file goes through `ydebug
import`. What comes of it has to have the actions of the file, byte for byte; `yacc -v` on it has to
have the states of `bison -v` on the file but the one after the end, apart from those that bison
cuts off, and conflicts on the same tokens in the same states; and conflicts have to be counted as
bison counts them. What is refused is named with the reason. It takes bison, and a network. The last
line is `N passed, M failed`, without those that were refused.
"""
import re
import sys
import tempfile
from collections import Counter
from pathlib import Path

from checks.peers.automata import by_bison, by_yacc, difference
from checks.peers.bison import conflicts_in, said_counts
from checks.peers.debian import Apt, Unfetched
from checks.shared.arguments import asked
from checks.shared.running import ran
from checks.shared.tally import Tally

PACKAGES = "mawk bc libpcap gawk flex jq libxkbcommon iproute2 units bash nftables ntpsec".split()
# A comment, a string, a character, code, a mark, a directive, or one byte.
PIECE = re.compile(
    rb"/\*.*?\*/|//[^\n]*|\"(?:\\.|[^\"\\])*\"|'(?:\\.|[^'\\])*'|%\{.*?%\}|%%|%[\w-]+|.", re.S
)
# What stands in braces after these is no action.
ASIDE = {b"%destructor", b"%printer", b"%code", b"%union", b"%initial-action", b"%param"}
EXPECTS = re.compile(rb"%expect(-rr)?[ \t]+\d+")
TOO_MANY = 99_999_999


def pieces_between_marks(source):
    """The pieces of the rules."""
    marks = 0
    for piece in PIECE.finditer(source):
        marks += piece[0] == b"%%"
        if marks == 1:
            yield piece[0]


def actions_of(source):
    """The texts in braces of the rules: those between the marks, but after a directive."""
    found, depth, aside = [], 0, False
    for piece in pieces_between_marks(source):
        if depth == 0:
            aside = piece in ASIDE or (aside and piece != b";")
        if piece == b"{":
            depth += 1
            found += [b""] if depth == 1 else []
        if depth:
            found[-1] += piece
        depth -= piece == b"}"
        if aside and depth == 0 and piece == b"}":
            found.pop()
    return found


def counted(ydebug, folder, source):
    """The conflicts that an import counts as bison does: the file says that it expects far more."""
    rest = EXPECTS.sub(b"", source)
    text = b"%%expect %d %%expect-rr %d " % (TOO_MANY, TOO_MANY) + rest
    (folder / "counted.y").write_bytes(text)
    return said_counts(ran([ydebug, "import", "counted.y", "-o", "none"], folder).stderr, -1)


def looked_at(ydebug, yacc, folder, source):
    """What differs, or None, of a grammar; and what is to be told beside it. A file that isn't
    imported, or that bison refuses, ends with a word of that."""
    (folder / "grammar.y").write_bytes(source)
    made = ran([ydebug, "import", "grammar.y", "-o", "imported.y"], folder)
    if made.returncode:
        return "refused", made.stderr.strip().splitlines()[-1]
    (folder / "bison.y").write_bytes(EXPECTS.sub(b"", source))
    words = "bison -Wnone -d -v --xml=bison.xml --report-file=bison.output -o bison.c bison.y"
    asked = ran(words.split(), folder)
    if asked.returncode:
        return "refused", f"bison refuses it: {asked.stderr.strip().splitlines()[0]}"
    made = ran([yacc, "-v", "imported.y"], folder)
    if made.returncode:
        return made.stderr.strip(), ""
    if actions_of(source) != actions_of((folder / "imported.y").read_bytes()):
        return "other actions", ""
    ours, theirs = counted(ydebug, folder, source), conflicts_in(
        (folder / "bison.output").read_text(errors="replace")
    )
    if ours != theirs:
        return f"{ours} conflicts are counted as bison does, {theirs} by bison", ""
    return difference(by_bison(folder / "bison.xml"), by_yacc(folder / "y.output"))


def tell(tally, refused, name, found):
    """Counts a grammar, and says what came of it."""
    what, told = found
    kind = "refused" if what == "refused" else "differs" if what else "alike"
    refused[name] += kind == "refused"
    print(f"{name}: {kind}: {'; '.join(it for it in (what, told) if it and it != 'refused')}")
    if kind != "refused":
        tally.take(name, [f"{what}\n"] if what else [])


def named(words, room):
    """Each grammar that the words name, or that is fetched."""
    files = [word for word in words if Path(word).is_file()]
    for file in files:
        yield file, Path(file).read_bytes()
    packages = [word for word in words if word not in files] or ([] if files else PACKAGES)
    if packages:
        apt = Apt(room)
    for package in packages:
        try:
            yield from apt.grammars(package)
        except Unfetched as why:
            print(f"{package}: not fetched: {why}", file=sys.stderr)


def main(words):
    """Compares the tables of imports."""
    given = asked(__doc__, words, ("ydebug", "yacc"))
    programs, tally, refused = [given.programs[it] for it in ("ydebug", "yacc")], Tally(), Counter()
    with tempfile.TemporaryDirectory(prefix="imports-") as room:
        try:
            for number, (name, source) in enumerate(named(given.words, Path(room))):
                folder = Path(room) / f"grammar-{number}"
                folder.mkdir()
                tell(tally, refused, name, looked_at(*programs, folder, source))
        except Unfetched as why:
            print(f"imports: nothing is fetched: {why}", file=sys.stderr)
            return 1
    print(f"{refused.total()} refused")
    return tally.end()
