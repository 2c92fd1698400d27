"""Draws source packages of Debian that use bison or byacc, and makes each of their parsers twice.

    drawn [--packages N] [--seed N] [--most MB] [--jobs N] [--keep FOLDER] [ycc=PATH] [PACKAGE..]

N packages (35) whose sources take at most MB (12) are drawn by a seed (1) from those that name
bison, byacc or btyacc among what they build with, or those that are named are taken. `configure`
is run where there is one, for each of the two with its programs found first, as a build finds
them. Each grammar in a package's source goes through the program that the package asks for, and
through `ycc` by that program's name: both have to take it, to give the same tokens the same
numbers, and to write a parser that compiles, in C++ where the grammar's file has such a name, with
what is there; where the package needs headers that this machine lacks, ours has to come to no
error that the other doesn't. What is no LALR parser in C (GLR, C++, another language), and what
the package's own program refuses, is named and not counted. A package passes if all of its
grammars do. It takes a network, bison, byacc and a C compiler, and isn't part of the gate. The
line before the last is the share; the last is `N passed, M failed`.
"""
import os
import random
import re
import shutil
import tempfile
from collections import Counter
from concurrent.futures import ThreadPoolExecutor
from contextlib import ExitStack
from dataclasses import dataclass
from functools import partial
from pathlib import Path
from subprocess import TimeoutExpired

from checks.peers.debian import Apt, Unfetched
from checks.peers.package_build import Build, Generators, lay_shims
from checks.shared.arguments import asked
from checks.shared.running import ran
from checks.shared.tally import Tally

USES = re.compile(r"(?<![\w.+-])(bison|byacc|btyacc)(?![\w.+-])")
FIELD = re.compile(r"(?m)^([\w-]+):[ \t]*(.*(?:\n[ \t].*)*)")
SIZE = re.compile(r"(?m)^ [0-9a-f]{32} (\d+) \S+$")
IN_C_PLUS_PLUS = {".yy", ".ypp", ".yxx", ".y++"}
ENDINGS = {".y", ".yacc"} | IN_C_PLUS_PLUS
# What says that a parser isn't one of LALR in C, each with its name.
OUTSIDE = {
    "GLR": re.compile(rb"%glr-parser|%skeleton\s*\"glr"),
    "C++": re.compile(rb"%skeleton\s*\"(?:lalr1|glr2?)\.cc\"|%language\s*\"[cC]\+\+\""),
    "another language": re.compile(rb"%language\s*\"(?i:java|d)\"|%skeleton\s*\"(?!yacc\.c)"),
    "a push parser": re.compile(rb"api\.push.pull"),
    "another kind of tables": re.compile(rb"%define\s+lr\.type\s+\"?(?:ielr|canonical)"),
}
# Comments, strings and code, in which no directive stands.
ASIDE = re.compile(rb"/\*.*?\*/|//[^\n]*|%\{.*?%\}", re.S)
TOKEN = re.compile(r"(?m)^(?:#define\s+|\s+)(\w+)\s*(?:=\s*)?(\d+)\s*,?\s*(?:/\*.*)?$")
# An error, without the name that a compiler proposes.
ERROR = re.compile(r"(?m)^([^\n:]*):(?:\d+:)*\s*(?:fatal )?error: (.*?)(?:; did you mean .*)?$")
LACKING = re.compile(r"fatal error: (\S+): No such file")
# The words for a parser that is its peer's: as a whole, or except for what neither compiles.
ALIKE, PARTLY = "alike", "alike where it compiles"
# The most folders that are searched for headers, and how many of these are made up where they lack.
FOLDERS, MADE_UP, CONFIGURES, COMPILES = 150, 25, 240, 60


@dataclass(frozen=True)
class User:
    """A package that uses a parser generator: its name, the generator's, and how large it is."""

    name: str
    generator: str
    size: int


@dataclass(frozen=True)
class Made:
    """What a program made of a grammar: a refusal, its tokens' numbers, a compiler's errors, each
    with whether it is in code of the package."""

    refusal: str = ""
    tokens: tuple = ()
    errors: tuple = ()


# --- which packages there are
def user_of(paragraph):
    """The user of a generator that a paragraph of Debian's index tells, or None."""
    fields = dict(FIELD.findall(paragraph))
    depends = " ".join(it for name, it in fields.items() if name.startswith("Build-Depends"))
    named = USES.findall(depends)
    if not named:
        return None
    size = sum(map(int, SIZE.findall(fields.get("Files", ""))))
    return User(fields["Package"], "bison" if "bison" in named else "byacc", size)


def users(apt):
    """The packages that use a generator, by their names."""
    found = {}
    for paragraph in apt.index().split("\n\n"):
        user = user_of(paragraph)
        if user:
            found[user.name] = user
    return [found[name] for name in sorted(found)]


def drawn(every, given):
    """Packages in the order in which they are drawn, or those that are named."""
    if given.words:
        return [it for it in every if it.name in given.words]
    small = [it for it in every if it.size <= given.most * 1_000_000]
    random.Random(given.seed).shuffle(small)
    return small


# --- one grammar, made by one program
def outside(text):
    """Why a parser isn't one of LALR in C, or nothing."""
    bare = ASIDE.sub(b" ", text)
    return next((name for name, sign in OUTSIDE.items() if sign.search(bare)), "")


def grammars(folder):
    """The grammar files of a package."""
    for file in sorted(folder.rglob("*")):
        if file.suffix in ENDINGS and file.is_file() and not file.is_symlink():
            if re.search(rb"(?m)^%%", file.read_bytes()):
                yield file


def folders_of_headers(folder):
    """The folders of a package that have headers."""
    found = sorted({it.parent for it in folder.rglob("*.h")}, key=lambda it: (len(it.parts), it))
    return found[:FOLDERS]


def names_of_header(stem):
    """The names by which a package may include the header of its parser."""
    return f"{stem}.h", f"{stem}.tab.h", f"{stem}.hh", "y.tab.h", f"{stem}_tab.h", f"{stem}-tab.h"


def first_error(text):
    """The first line of a message that tells an error, without places."""
    found = ERROR.search(text)
    return found[2] if found else (text.strip().splitlines() or ["nothing is said"])[-1]


def compiled(room, file, package):
    """The errors of a compiler on a parser; headers that lack are made up, empty. A package's own
    headers hide none of the system's."""
    parts = ["-I.", f"-I{file.parent}"]
    parts += [f"-idirafter{it}" for it in folders_of_headers(package)]
    config = ["-DHAVE_CONFIG_H"] if any(package.rglob("config.h")) else []
    language = "c++" if file.suffix in IN_C_PLUS_PLUS else "c"
    words = ["cc", "-w", "-fsyntax-only", "-fmax-errors=0", *config, *parts, "-x", language]
    said = ""
    for _ in range(MADE_UP):
        said = ran([*words, "parser.c"], room, timeout=COMPILES).stderr
        lacking = LACKING.search(said)
        if not lacking or lacking[1].startswith(("/", "..")):
            break
        (room / lacking[1]).parent.mkdir(parents=True, exist_ok=True)
        (room / lacking[1]).write_text("")
    told = ERROR.findall(said)
    return tuple(sorted((not re.search(r"\bparser\.[ch]$", name), text) for name, text in told))


def made_by(generator, build, file, number):
    """What a generator makes of a grammar in a build, in a folder of its own."""
    room = build.room / str(number)
    room.mkdir()
    file = build.folder / file
    words = [build.room / "tools" / generator, "-d", "-o", room / "parser.c", file.name]
    try:
        made = ran(words, file.parent, timeout=COMPILES)
    except TimeoutExpired:
        return Made(refusal=f"it takes more than {COMPILES} seconds")
    if made.returncode or not (room / "parser.c").exists():
        return Made(refusal=first_error(made.stderr))
    header = room / "parser.h"
    text = header.read_text(errors="replace") if header.exists() else ""
    for name in names_of_header(file.stem):
        if header.exists() and not (room / name).exists():
            (room / name).write_text(text)
    errors = compiled(room, file, build.folder)
    return Made(tokens=tuple(sorted({*TOKEN.findall(text)})), errors=errors)


# --- what came of it
def verdict(ours, peer):
    """A word for how a parser of ours stands to its peer's, and the reason."""
    if peer.refusal:
        return "not counted", f"its own program refuses it: {peer.refusal}"
    if ours.refusal:
        return "refused", ours.refusal
    if ours.tokens != peer.tokens:
        other = sorted({*ours.tokens} ^ {*peer.tokens})[:4]
        return "other tokens", ", ".join(" ".join(it) for it in other)
    # Where headers lack, a compiler loses its way in what a generator writes.
    some = [[it for it in made.errors if it[0] or not peer.errors] for made in (ours, peer)]
    more = Counter(some[0]) - Counter(some[1])
    if more:
        return "doesn't compile", min(more)[1]
    if peer.errors:
        return PARTLY, f"{len(peer.errors)} errors of what isn't here"
    return ALIKE, ""


def built(package, room, ycc):
    """A package twice, configured with `ycc` and with its peers in front of all other programs."""
    peer = Generators("peer", shutil.which("byacc"), shutil.which("bison"))
    builds = []
    for it in (Generators("ycc", ycc, f"{ycc} --bison"), peer):
        lay_shims(room / it.name, it)
        builds.append(Build(room / it.name, room / peer.name))
        shutil.copytree(package, builds[-1].folder, symlinks=True)
        builds[-1].shell(f"! test -e configure || timeout {CONFIGURES} sh ./configure")
    return builds


def counted(user, apt, given):
    """The words of a package's grammars; each is told."""
    try:
        package = apt.unpacked(user.name)
    except Unfetched:
        return [f"{user.name}: not fetched"], []
    files = list(grammars(package))
    builds = []
    if any(not outside(it.read_bytes()) for it in files):
        builds = built(package, apt.room / "made" / user.name, given.programs["ycc"])
    lines, words = [], []
    for number, file in enumerate(it.relative_to(package) for it in files):
        why = outside((package / file).read_bytes())
        made = [] if why else [made_by(user.generator, it, file, number) for it in builds]
        word, reason = ("not counted", why) if why else verdict(*made)
        words.append(word)
        told = f"{user.name}: {file}: {word}"
        lines.append(f"{told}: {reason}" if reason else told)
    return lines or [f"{user.name}: no grammar"], [it for it in words if it != "not counted"]


def taken(every, apt, given):
    """What comes of packages, until enough have a grammar that counts."""
    left = iter(drawn(every, given))
    found = 0
    with ThreadPoolExecutor(given.jobs) as pool:
        while found < given.packages:
            some = [it for _, it in zip(range(given.packages - found), left)]
            if not some:
                return
            for lines, words in pool.map(partial(counted, apt=apt, given=given), some):
                print("\n".join(lines), flush=True)
                found += bool(words)
                if words:
                    yield words


def main(words):
    """Draws packages, and makes their parsers."""
    options = {"packages": 35, "seed": 1, "most": 12, "jobs": os.cpu_count(), "keep": Path}
    given, tally, kinds = asked(__doc__, words, ("ycc",), **options), Tally(), Counter()
    given.programs["ycc"] = str(Path(given.programs["ycc"]).absolute())
    with ExitStack() as stack:
        room = given.keep or stack.enter_context(tempfile.TemporaryDirectory(prefix="drawn-"))
        apt = Apt(Path(room).absolute())
        for found in taken(users(apt), apt, given):
            kinds.update(found)
            tally.add(*(1, 0) if {*found} <= {ALIKE, PARTLY} else (0, 1))
    told = ", ".join(f"{number} {word}" for word, number in kinds.most_common())
    packages = tally.passed + tally.failed
    print(f"grammars: {told}; packages all alike: {tally.passed} of {packages}")
    return tally.end()
