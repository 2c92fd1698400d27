"""Builds a calculator by `ycc` in each way in which a build names a generator of parsers.

    builds [--peer-twice] [--only WORD] [--keep FOLDER] [ycc=PATH]

The calculator of examples/calculator-c, as it is and with a directive of bison, is built below
make's own rule, automake's ylwrap, CMake, Meson and a makefile that calls bison, each told of `ycc`
by a variable, a file or a link. In each folder parsers lie that are out of date, by all names that
a generator gives: none of them may be compiled. The parser has to be one that `ycc` made, and the
calculator has to give the answers that it is known to give. With `--peer-twice` bison stands in
ycc's place. What a build needs that isn't there is named, and fails it. The last line is
`N passed, M failed`.
"""
import os
import shutil
import signal
import subprocess
import tempfile
from contextlib import ExitStack
from dataclasses import dataclass, field
from pathlib import Path

from checks.peers.package_build import TAKEN_OUT, last_lines
from checks.peers.package_list import AUTOTOOLS, CALCULATOR, CMAKE, MESON
from checks.shared.arguments import asked
from checks.shared.tally import Tally

# A parser that is out of date: it gives an answer, so that a build which takes it goes on.
STALE = '#include <stdio.h>\nint main (void) { puts ("out of date"); return 0; }\n'
STALE_NAMES = [
    f"{folder}{name}"
    for folder in ("", "out/", "out/calc.p/")
    for name in ("calc.c", "calc.tab.c", "y.tab.c", "calc.h", "calc.tab.h", "y.tab.h")
]
# When what is out of date was written, in seconds.
LONG_AGO = 1_000_000_000
SECONDS = 300
# What a file has to have so that byacc doesn't take it.
OF_BISON = "%define parse.error simple\n"
MAKEFILE = """BISON = bison
calc: calc.tab.c
	$(CC) -o $@ calc.tab.c
calc.tab.c: calc.y
	$(BISON) -d calc.y
"""


@dataclass(frozen=True)
class Generator:
    """What stands for `yacc` and for `bison`: words, a path, and what its parsers begin with."""

    yacc: str
    bison: str
    path: str
    sign: str

    def filled(self, text):
        """A text with these in it."""
        words = ", ".join(f"'{word}'" for word in self.bison.split())
        known = {"YACC": self.yacc, "BISON": self.bison, "PATH": self.path, "WORDS": words}
        for name, value in known.items():
            text = text.replace(f"@{name}@", value)
        return text


@dataclass(frozen=True)
class Way:
    """A way to build: the script, the files, the parser and the program that come of it."""

    name: str
    script: str
    parser: str
    needs: tuple = ()
    files: dict = field(default_factory=dict)
    program: str = "calc"


# The folder `links` has links to the generator by the names that builds know.
LINKED = 'PATH="$PWD/links:$PATH"\nexport PATH\n'
MADE_BY_CMAKE = "cmake -B out {} .\nmake -C out"
IN_MESON = "out/calc.p/calc.tab.c"
WAYS = [
    Way("make by YACC", "make YACC='@YACC@' calc\n", ""),
    Way("make by a link yacc", f"{LINKED}make YACC=yacc calc\n", ""),
    Way("make by BISON", "make BISON='@BISON@'\n", "calc.tab.c", files={"Makefile": MAKEFILE}),
    Way("make by a link bison", f"{LINKED}make\n", "calc.tab.c", files={"Makefile": MAKEFILE}),
    Way(
        "ylwrap by YACC",
        "autoreconf -i\n./configure YACC='@YACC@'\nmake\n",
        "calc.c",
        ("automake",),
        AUTOTOOLS,
    ),
    Way(
        "ylwrap by a link bison",
        f"{LINKED}autoreconf -i\n./configure\ngrep -q \"^YACC='bison -y'\" config.log\nmake\n",
        "calc.c",
        ("automake",),
        AUTOTOOLS,
    ),
    Way(
        "CMake by BISON_EXECUTABLE",
        MADE_BY_CMAKE.format("-DBISON_EXECUTABLE='@PATH@'"),
        "out/calc.c",
        ("cmake",),
        {"CMakeLists.txt": CMAKE},
        "out/calc",
    ),
    Way(
        "CMake by a link bison",
        LINKED + MADE_BY_CMAKE.format(""),
        "out/calc.c",
        ("cmake",),
        {"CMakeLists.txt": CMAKE},
        "out/calc",
    ),
    Way(
        "Meson by a native file",
        "meson setup --native-file native.ini out\nninja -C out",
        IN_MESON,
        ("meson", "ninja"),
        {"meson.build": MESON, "native.ini": "[binaries]\nbison = [@WORDS@]\n"},
        "out/calc",
    ),
    Way(
        "Meson by a link bison",
        f"{LINKED}meson setup out\nninja -C out",
        IN_MESON,
        ("meson", "ninja"),
        {"meson.build": MESON},
        "out/calc",
    ),
]


def lay(way, generator, grammar, room):
    """Writes a project, and parsers that are out of date, into a folder."""
    texts = {**way.files, "calc.y": grammar, **{name: STALE for name in STALE_NAMES}}
    for name, text in texts.items():
        file = room / name
        file.parent.mkdir(parents=True, exist_ok=True)
        file.write_text(generator.filled(text))
        if text == STALE:
            os.utime(file, (LONG_AGO, LONG_AGO))
    (room / "links").mkdir()
    (room / "links" / "bison").symlink_to(generator.path)
    yacc = room / "links" / "yacc"
    if generator.yacc == generator.path:
        yacc.symlink_to(generator.path)
    else:
        yacc.write_text(f'#!/bin/sh\nexec {generator.yacc} "$@"\n')
        yacc.chmod(0o755)


def ran(script, room):
    """What a script comes to; all that it began ends with it."""
    kept = {name: value for name, value in os.environ.items() if name not in TAKEN_OUT}
    with subprocess.Popen(
        ["sh", "-ec", script],
        cwd=room,
        env={**kept, "LC_ALL": "C"},
        stdin=subprocess.DEVNULL,
        stdout=subprocess.PIPE,
        stderr=subprocess.STDOUT,
        text=True,
        errors="replace",
        start_new_session=True,
    ) as running:
        try:
            out, _ = running.communicate(timeout=SECONDS)
            return running.returncode, out
        except subprocess.TimeoutExpired:
            os.killpg(running.pid, signal.SIGKILL)
            return None, f"it takes more than {SECONDS} seconds"


def wrong_answers(program):
    """What is wrong with what a calculator answers."""
    sums, answers = ((CALCULATOR / it).read_bytes() for it in ("sums", "answers"))
    made = subprocess.run([program], input=sums, capture_output=True, timeout=SECONDS).stdout
    return [] if made == answers else [f"other answers: {made.decode(errors='replace')!r}\n"]


def wrong_parser(parser, generator):
    """What is wrong with the parser that was compiled."""
    text = parser.read_text() if parser.is_file() else ""
    return [] if generator.sign in text else [f"{parser.name} isn't what the generator wrote\n"]


def wrong(way, generator, grammar, room):
    """The lines that say what is wrong with a build."""
    missing = [it for it in way.needs if not shutil.which(it)]
    if missing:
        return [f"there is no {' and no '.join(missing)}: apt-get installs it\n"]
    lay(way, generator, grammar, room)
    status, out = ran(generator.filled(way.script), room)
    if status != 0:
        return [f"{last_lines(out)}\n"]
    lines = wrong_parser(room / way.parser, generator) if way.parser else []
    return lines or wrong_answers(room / way.program)


def generator_of(ycc):
    """`ycc`, or bison in its place."""
    if ycc is None:
        path = shutil.which("bison")
        return Generator(f"{path} -y", path, path, "Bison implementation")
    path = str(Path(ycc).absolute())
    return Generator(path, f"{path} --bison", path, "A parser that ycc made")


def main(words):
    """Builds the calculator in each way."""
    options = {"peer_twice": False, "only": "", "keep": Path}
    given = asked(__doc__, words, () if "--peer-twice" in words else ("ycc",), **options)
    generator, tally = generator_of(given.programs.get("ycc")), Tally()
    plain = (CALCULATOR / "calc.y").read_text()
    with ExitStack() as stack:
        room = given.keep or stack.enter_context(tempfile.TemporaryDirectory(prefix="builds-"))
        for kind, grammar in (("plain", plain), ("of bison", OF_BISON + plain)):
            for way in WAYS:
                if given.only in way.name:
                    folder = Path(room).absolute() / f"{way.name} {kind}".replace(" ", "-")
                    tally.take(f"{way.name}, {kind}", wrong(way, generator, grammar, folder))
    return tally.end()
