"""Scenarios that a page tells: what stands in its fenced blocks.

docs/FORMATS.md says what each block means. A session is a scenario for each of its command lines:
the first lines up to it, and all that is replied to them.
"""
import re
from pathlib import Path

from checks.scenarios.folders import Fault, Scenario, wanted_of

BLOCK = re.compile(r"^```(file|left|session|message)(?: (.*))?\n((?:.*\n)*?)```$", re.M)
STATUS = re.compile(r"status=(\d+)")


def blocks_of(text):
    """The kind of each block, what stands after it, the lines in it, and the line it begins at."""
    for found in BLOCK.finditer(text):
        line = text.count("\n", 0, found.start()) + 1
        yield found[1], found[2] or "", found[3].splitlines(keepends=True), line


def typed_and_replied(lines):
    """The command lines, and what is replied before the first and to each."""
    typed, replied = [], [""]
    for line in lines:
        if line.startswith(">"):
            typed.append(line[1:].removeprefix(" "))
            replied.append("")
        else:
            replied[-1] += line
    return typed, replied


def words_of(lines):
    """The words of a session's first line."""
    if not lines or not lines[0].startswith("$ "):
        raise Fault("a session begins with `$ ` and the words of a program")
    return lines[0][2:].split()


def told(name, stream, more, lines, files):
    """The scenarios of a session."""
    words, (typed, replied) = words_of(lines), typed_and_replied(lines[1:])
    status = STATUS.fullmatch(more or "status=0")
    if not status:
        raise Fault(f"{more} is no status")
    for count in range(min(len(typed), 1), len(typed) + 1):
        back = {"status": f"{status[1]}\n", stream: "".join(replied[: count + 1])}
        stdin = "".join(typed[:count]).encode()
        wanted = wanted_of({path: text.encode() for path, text in back.items()}, files)
        yield Scenario(name / str(count), words, stdin, dict(files), {}, {}, wanted)


def scenarios_of(page):
    """The scenarios of a page, in order; their names are its path, a line and a count."""
    files, found = {}, []
    for kind, more, lines, line in blocks_of(page.read_text()):
        text = "".join(lines).encode()
        if kind == "file":
            files[more] = text
        elif kind == "left":
            found[-1].wanted[f"left/{more}"] = text
        else:
            stream = "stdout" if kind == "session" else "message"
            found += told(Path(page) / str(line), stream, more, lines, files)
    if not found:
        raise Fault("the page has no session")
    return found
