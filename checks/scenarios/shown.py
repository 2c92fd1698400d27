"""What documents show as commands: in blocks of Markdown and of manual pages.

A line of a block that begins with `$ ` is a command; a block without one is none of ours. Lines
below it that begin with `> ` are typed, and all others are what is answered. docs/FORMATS.md,
"Commands in documents", has the rules.
"""
import re
from dataclasses import dataclass, field

from checks.scenarios.folders import Fault

# A fenced block, or lines that are set in; and a literal block of a manual page.
FENCED = r"^```(?P<info>.*)\n(?P<fenced>(?:.*\n)*?)```$"
INSET = r"(?P<inset>(?:^ {4}.*\n(?:\n+(?= {4}))*)+)"
MARKDOWN = re.compile(f"{FENCED}|{INSET}", re.M)
MANUAL = re.compile(r"^\.Bd -literal.*\n(?P<literal>(?:.*\n)*?)\.Ed$", re.M)
FOLDER = re.compile(r"\b[Ii]n `((?:examples|drivers)\b[^`]*)`")
FILE = re.compile(r"\binto `([^`]+)`")
STATUS = re.compile(r"\bstatus=(\d+)")
MACRO = re.compile(r"^\.[A-Z][a-z]\b ?(.*)$", re.M)
PATH = re.compile(r"^\.Pa (\S+)(.*)$", re.M)
# The blocks in which lines that begin with `> ` are typed, set in or between fences, and those that
# are files.
SESSIONS = "", "session", "message", "shell"
FILES = "file", "left"
ESCAPES = {r"\e": "\\", r"\(dq": '"', r"\-": "-", r"\&": ""}
ESCAPE = re.compile("|".join(map(re.escape, ESCAPES)))


@dataclass
class Command:
    """A command, the line it stands in, what is typed into it, and what is answered: before the
    first line that is typed, and to each."""

    text: str
    line: int
    typed: list = field(default_factory=list)
    answers: list = field(default_factory=lambda: [[]])


@dataclass
class Block:
    """A block: what its fence says, its lines and the line it begins at, and the text above it, up
    to the block before."""

    kind: str
    more: str
    lines: list
    line: int
    above: str

    def folder(self):
        """The folder that the paragraph above names last, if it names one."""
        found = FOLDER.findall(self.paragraph())
        return found[-1] if found else ""

    def status(self):
        """The status with which the last command ends, where the fence or scenarios say it."""
        found = STATUS.search(self.more)
        if found:
            return int(found[1])
        return 0 if self.kind in ("session", "message") else None

    def paragraph(self):
        """The last paragraph above, in one line."""
        return " ".join(self.above.rstrip().split("\n\n")[-1].split())

    def file(self):
        """The file that it shows: by its fence, or where it has no command by the paragraph above,
        which says into what to put it; none where neither does."""
        if self.kind == "file":
            return self.more
        found = FILE.findall(self.paragraph())
        return found[-1] if found and not self.kind and not self.is_session() else ""

    def is_session(self):
        """Whether it has commands."""
        return any(it.startswith("$ ") for it in self.lines)

    def text(self):
        """Its lines as the text of a file."""
        return "".join(f"{it}\n" for it in self.lines)

    def commands(self):
        """Its commands; none where no line begins as one."""
        found = []
        if self.kind in FILES:
            return found
        if not self.is_session():
            if self.kind in SESSIONS and any(it.startswith("> ") for it in self.lines):
                raise Fault("lines are typed, and no command is there")
            return found
        for number, line in enumerate(self.lines, self.line):
            if line.startswith("$ "):
                found.append(Command(line[2:], number))
            elif not found:
                raise Fault(f"line {number}: an answer stands before the first command")
            elif line == ">" or line.startswith("> "):
                found[-1].typed.append(line[2:])
                found[-1].answers.append([])
            else:
                found[-1].answers[-1].append(line)
        return found


def plain(text):
    """A text of a manual page without its macros, with paths in grave accents as in Markdown."""
    return MACRO.sub(r"\1", PATH.sub(r"`\1`\2", text))


def of_markdown(found):
    """What the fence of a block says, the rest of that line, its lines, and how many lines stand
    above these."""
    if found["inset"]:
        lines = [it[4:] for it in found["inset"].rstrip("\n").split("\n")]
        return "", "", lines, 0
    kind, _, more = found["info"].partition(" ")
    return kind, more, found["fenced"].splitlines(), 1


def of_manual(found):
    """The same of a literal block of a manual page, whose escapes are what they stand for."""
    lines = ESCAPE.sub(lambda it: ESCAPES[it[0]], found["literal"]).splitlines()
    return "", "", lines, 1


def blocks_of(text, is_manual=False):
    """The blocks of a document, in order."""
    pattern, read = (MANUAL, of_manual) if is_manual else (MARKDOWN, of_markdown)
    end = 0
    for found in pattern.finditer(text):
        above = text[end:found.start()]
        kind, more, lines, before = read(found)
        line = text.count("\n", 0, found.start()) + 1 + before
        yield Block(kind, more, lines, line, plain(above) if is_manual else above)
        end = found.end()


def answer_to(text, command):
    """What a document in Markdown shows that a command answers."""
    commands = (it for block in blocks_of(text) for it in block.commands())
    found = next(it for it in commands if it.text == command)
    return "".join(f"{line}\n" for lines in found.answers for line in lines).encode()
