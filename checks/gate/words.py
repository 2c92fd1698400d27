"""Compares what the fault codes say in the program with what the document has of them.

    fault-words [WORDS DOCUMENT]

WORDS is crates/yfaults/src/words.rt, DOCUMENT docs/FAULTS.md. Each difference is printed, and the
status is then 1.
"""
import re
from pathlib import Path

from checks.shared.places import CRATES, FAULTS

FILES = CRATES / "yfaults/src/words.rt", FAULTS
TEXT = r'"((?:[^"\\]|\\.)*)"'
TABLE = re.compile(rf"const TABLE: &str = {TEXT};", re.S)
ENTRY = re.compile(rf"Words \{{\s*code: {TEXT},\s*what:\s*{TEXT},\s*mend:\s*{TEXT},\s*\}}", re.S)
ROW = re.compile(r"^\| (\w+)(?: at the end)? \| (.*) \| (.*) \|$", re.M)
CODE = re.compile(r"[GBK]\d+")


def spelled(text):
    """What a string of the program says."""
    return re.sub(r"\\(.)", r"\1", re.sub(r"\\\n\s*", "", text))


def of_program(text):
    """The code, the fault and the mending of each entry, in order."""
    lines = [spelled(line) for table in TABLE.findall(text) for line in table.split("\n")[1:]]
    entries = [(*line.split(" ", 1), mend) for line, mend in zip(lines[::2], lines[1::2])]
    return entries + [tuple(map(spelled, entry)) for entry in ENTRY.findall(text)]


def of_document(text):
    """The same of each row of a table whose first cell is a code."""
    rows = [tuple(cell.replace("\\|", "|") for cell in row) for row in ROW.findall(text)]
    return [row for row in rows if CODE.fullmatch(row[0])]


def differences(ours, theirs):
    """A line for each entry that only one of both has, or on their order and counts."""
    if not ours:
        yield "the program has no words"
    yield from (f"only in the program: {' | '.join(it)}" for it in ours if it not in theirs)
    yield from (f"only in the document: {' | '.join(it)}" for it in theirs if it not in ours)
    if {*ours} == {*theirs} and ours != theirs:
        yield "the orders differ, or one stands twice"


def main(words):
    """Shows the differences."""
    program, document = [Path(it).read_text() for it in words or FILES]
    found = [*differences(of_program(program), of_document(document))]
    for line in found:
        print(f"fault-words: {line}")
    return 1 if found else 0
