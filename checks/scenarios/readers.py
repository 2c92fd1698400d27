"""Runs what the documents show as commands, as a reader does who copies each one as it stands.

    readers [PROGRAM=PATH..] [PAGE..]

PAGE is a document, NAME.md or a manual page; without one README.md, the tutorial, the manual, the
course, the list of faults and all manual pages are meant. Commands run in a shell, with the
programs on their path that `make install` puts there: `yacc` is one of them below a text with
TABLE_WRITER=1 alone. docs/FORMATS.md, "Commands in documents", says what a reader does with a
block. Then come the tables of manual pages, by groff and mandoc, where these are installed. The
last line is `N passed, M failed`.
"""
import os
import re
import shutil
import subprocess
import tempfile
from pathlib import Path

from checks.scenarios.folders import Fault
from checks.scenarios.manuals import look_at_manuals
from checks.scenarios.shown import blocks_of
from checks.shared.arguments import asked
from checks.shared.places import DRIVERS, EXAMPLES, PAGES, TOP
from checks.shared.tally import Tally

MANUALS = sorted((TOP / "man").glob("*.[1-8]"))
DOCUMENTS = [TOP / "README.md", TOP / "docs/MANUAL.md", *PAGES, *MANUALS]
PROGRAMS = "ycc", "ystep", "ydebug", "yacc"
# What is copied by an install, and what only by one that is asked for it.
COPIED, ASIDE, ASKED = "copies", "on_path", "TABLE_WRITER=1"
ABSENT = "#!/bin/sh\necho 'make install puts no such program on the path' >&2\nexit 127\n"
# Where an install has the sources of drivers.
SHARED = "/usr/share/ydriver"
LEFT_OUT = ".."
SECONDS = 60
# What stands after a command, to tell the folder in which the next one runs.
AFTER = '\nended=$?; pwd > "$WHERE"; exit "$ended"\n'


def copies(name):
    """The files that a list in the Makefile copies, each with where it goes."""
    found = re.search(rf"^define {name}\n(.*?)^endef$", (TOP / "Makefile").read_text(), re.M | re.S)
    return [line.split()[1:] for line in found[1].splitlines()]


def on_path(name):
    """The programs that a list in the Makefile puts onto the path."""
    return [Path(to).name for _, to in copies(name) if Path(to).parent == Path("bin")]


def differs(wanted, made):
    """Whether lines differ from those that are wanted, in which `..` is any number of lines."""
    pieces = (r"(?:.*\n)*" if it == LEFT_OUT else re.escape(f"{it.rstrip()}\n") for it in wanted)
    return not re.fullmatch("".join(pieces), "".join(f"{it.rstrip()}\n" for it in made))


def told(wanted, made):
    """The lines that say what was wanted and what came."""
    return [*(f"  shown {it}\n" for it in wanted), *(f"  came  {it}\n" for it in made)]


def runs_of(command):
    """What is typed in each run of a command, and what is answered: a run more for each line that
    is typed, so that each answer stands below its line."""
    for count in range(min(len(command.typed), 1), len(command.typed) + 1):
        typed = "".join(f"{it}\n" for it in command.typed[:count])
        yield typed, [line for lines in command.answers[:count + 1] for line in lines]


class Desk:
    """The machine of a reader of one document: programs on the path, and a folder of its own."""

    def __init__(self, room, programs):
        self.room, self.programs = Path(room), programs
        self.home = self.room / "home"
        self.home.mkdir()
        for name in on_path(COPIED):
            self.put_program(name)
        for name in on_path(ASIDE):
            self.put(name, ABSENT)

    def lay_out(self, text):
        """Copies what a document speaks of: the examples, the drivers, and the drivers as an
        install has them."""
        for folder in (EXAMPLES, DRIVERS):
            if folder.name in text:
                nothing = shutil.ignore_patterns("__pycache__")
                shutil.copytree(folder, self.home / folder.name, ignore=nothing)
        if SHARED in text:
            self.install_drivers()

    def put_program(self, name):
        """Puts one of the programs onto the path."""
        self.put(name, f'#!/bin/sh\nexec "{self.programs[name]}" "$@"\n')

    def put_asked(self):
        """Puts those onto the path that an install is asked for."""
        for name in on_path(ASIDE):
            self.put_program(name)

    def put(self, name, text):
        """Puts a script onto the path."""
        file = self.room / "bin" / name
        file.parent.mkdir(exist_ok=True)
        file.write_text(text)
        file.chmod(0o755)

    def install_drivers(self):
        """Lays the drivers where an install has them; the library is made when it is asked for."""
        for file, to in copies(COPIED):
            place = to.replace("$(shared)", "share")
            if Path(place).parts[:-1] in (("share",), ("include",)):
                (self.room / place).parent.mkdir(exist_ok=True)
                shutil.copy(TOP / file, self.room / place)

    def make_library(self):
        """Makes the library of the driver in C where none is yet."""
        folder = self.room / "lib"
        if folder.is_dir():
            return
        folder.mkdir()
        sources = [str(DRIVERS / "c" / it) for it in ("ydriver.c", "ydmessages.c")]
        subprocess.run(["cc", "-c", *sources], cwd=folder, check=True)
        objects = [it.name for it in folder.glob("*.o")]
        subprocess.run(["ar", "rc", "libydriver.a", *objects], cwd=folder, check=True)

    def environment(self):
        """What is set where a command runs."""
        kept = {"HOME": str(self.room), "LC_ALL": "C", "WHERE": str(self.room / "where")}
        kept |= {"C_INCLUDE_PATH": f"{self.room}/include", "LIBRARY_PATH": f"{self.room}/lib"}
        return kept | {"PATH": f"{self.room}/bin:{os.environ['PATH']}"}

    def run(self, text, typed, folder):
        """The lines that a command writes, its status, and the folder of the next one."""
        if "-lydriver" in text:
            self.make_library()
        where = self.room / "where"
        where.unlink(missing_ok=True)
        how = {"stdout": subprocess.PIPE, "stderr": subprocess.STDOUT, "timeout": SECONDS}
        words = ["sh", "-c", text.replace(SHARED, str(self.room / "share")) + AFTER]
        ran = subprocess.run(words, cwd=folder, input=typed.encode(), env=self.environment(), **how)
        made = ran.stdout.decode(errors="replace").replace(str(self.room / "share"), SHARED)
        after = Path(where.read_text().rstrip("\n")) if where.is_file() else folder
        return made.splitlines(), ran.returncode, after


class Reading:
    """One document, as it is read from its beginning to its end."""

    def __init__(self, page, desk, tally):
        self.page, self.desk, self.tally = page, desk, tally

    def name(self, line):
        """The name of what stands in a line."""
        return f"{self.page.name}:{line}"

    def place_of(self, block):
        """The folder in which a block begins."""
        folder = self.desk.home / block.folder()
        if not folder.is_dir():
            raise Fault(f"there is no folder {block.folder()}")
        return folder

    def keep(self, block, name):
        """Writes the file that a block shows, as its reader does."""
        file = self.place_of(block) / name
        file.parent.mkdir(parents=True, exist_ok=True)
        file.write_text(block.text())

    def compare_left(self, block):
        """Compares a file with what a block shows of it."""
        file = self.desk.home / block.more
        made = file.read_text().splitlines() if file.is_file() else ["no such file"]
        wrong = told(block.lines, made) if made != block.lines else []
        self.tally.take(self.name(block.line), wrong)

    def run(self, command, folder, status):
        """Runs a command; the folder in which the next one runs."""
        after, wrong = folder, []
        for typed, wanted in runs_of(command):
            made, ended, after = self.desk.run(command.text, typed, folder)
            if not wrong and differs(wanted, made):
                wrong = told(wanted, made)
            if not wrong and status is not None and ended != status:
                wrong = [f"  status {ended}, and not {status}\n"]
        self.tally.take(f"{self.name(command.line)}: {command.text}", wrong)
        return after

    def do(self, block):
        """Does what a block asks of a reader."""
        name, commands = block.file(), block.commands()
        if block.kind == "left":
            self.compare_left(block)
        elif name:
            self.keep(block, name)
        folder = self.place_of(block) if commands else None
        for command in commands:
            status = block.status() if command is commands[-1] else None
            folder = self.run(command, folder, status)

    def read(self):
        """Reads the document."""
        text = self.page.read_text()
        self.desk.lay_out(text)
        for block in blocks_of(text, self.page.suffix != ".md"):
            if ASKED in block.above:
                self.desk.put_asked()
            try:
                self.do(block)
            except (Fault, OSError, subprocess.SubprocessError) as fault:
                self.tally.take(self.name(block.line), [f"  {fault}\n"])


def main(words):
    """Reads documents."""
    given, tally = asked(__doc__, words, PROGRAMS), Tally()
    pages = [Path(it).absolute() for it in given.words] or DOCUMENTS
    for page in pages:
        with tempfile.TemporaryDirectory() as room:
            Reading(page, Desk(room, given.programs), tally).read()
    look_at_manuals([it for it in pages if it.suffix != ".md"], tally)
    return tally.end()
