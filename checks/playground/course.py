"""The course: what its lessons say is to be seen, beside the module in the page.

A lesson has blocks beside those of scenarios (docs/FORMATS.md, "Documents with sessions"): `report`
has lines of the report on its grammar, in order, with `..` where some are left out, and `seen` a
line for each thing that is counted in the parse of its tokens and in its tables. After `report` and
`seen` may stand the file of another grammar. Each number in the text of a lesson stands in one of
its blocks.
"""
import re
from collections import Counter
from dataclasses import dataclass

from checks.playground.module import Module, parts_of
from checks.shared.places import COURSE

BLOCK = re.compile(r"^```(\w+)(?: (.*))?\n((?:.*\n)*?)```$", re.M)
LESSON = re.compile(r"^## ", re.M)
NUMBER = re.compile(r"\d+")
MARKER = re.compile(r"^\d+\. ", re.M)
KINDS = {"shifts": r"shift (?!error$).*", "reductions": r"reduce \d+", "detections": "detect",
         "discards": "discard .*"}
FAR, LESSONS = 10_000, 6


@dataclass
class Block:
    """A block of a lesson, with the files as they are there."""

    kind: str
    name: str
    text: str
    files: dict


def lessons_of(text):
    """The lessons of a course: the title and the text of each."""
    return [part.partition("\n")[::2] for part in LESSON.split(text)[1:]]


def blocks_of(text):
    """The blocks of a lesson."""
    files = {}
    for kind, name, inside in BLOCK.findall(text):
        if kind == "file":
            files = {**files, name: inside}
        yield Block(kind, name, inside, files)


def counted(answer):
    """What is counted in a parse and in its tables."""
    said, shown = parts_of(answer["replies"])[-1]
    steps = [line.partition(" ")[2] for line in said]
    found = Counter(kind for kind, form in KINDS.items() for it in steps if re.fullmatch(form, it))
    states = re.search(r"^States (\d+)$", answer["report"], re.M)[1]
    pairs = zip(("shift/reduce", "reduce/reduce"), answer["conflicts"])
    more = {"steps": shown[0].split()[0], "errors": shown[4].split()[1], "states": states}
    return {kind: found[kind] for kind in KINDS} | {it: int(more[it]) for it in more} | dict(pairs)


def wrong_seen(answer, text):
    """What is counted otherwise."""
    found = {it: str(value) for it, value in counted(answer).items()}
    pairs = (line.rpartition(" ")[::2] for line in text.splitlines())
    return [f"{name} {number} is told, {found.get(name)} counted\n" for name, number in pairs
            if found.get(name) != number]


def wrong_report(answer, text):
    """The lines that don't stand in a report, in this order."""
    report, at = f"\n{answer['report']}", 0
    for part in text.split("..\n"):
        found = report.find(f"\n{part}", at)
        if found < 0:
            return ["not in the report:\n", part]
        at = found + len(part)
    return []


def wrong_block(module, block):
    """What is wrong with a block."""
    grammar = block.files.get(block.name or "grammar.y", "")
    answer = module.ask(grammar, block.files.get("tokens", ""), f"run {FAR}\nshow\n")
    if answer["status"]:
        return [f"the files of a lesson are refused, with status {answer['status']}\n"]
    return {"seen": wrong_seen, "report": wrong_report}[block.kind](answer, block.text)


def wrong_numbers(text):
    """The numbers in the text of a lesson that stand in none of its blocks."""
    inside = {it for block in BLOCK.findall(text) for it in NUMBER.findall(block[2])}
    told = NUMBER.findall(MARKER.sub("", BLOCK.sub("", text)))
    return [f"{it} stands in no block\n" for it in told if it not in inside]


def compare_lessons(module, lessons, tally):
    """Some lessons."""
    for title, text in lessons:
        blocks = list(blocks_of(text))
        for block in blocks:
            if block.kind in ("seen", "report"):
                tally.take(f"{title}: {block.kind}", wrong_block(module, block))
        tally.take(f"{title}: its numbers", wrong_numbers(text))
        kinds = {it.kind for it in blocks}
        tally.hold(f"{title}: its blocks", {"file", "seen"} < kinds, kinds)
        tally.hold(f"{title}: three questions", len(MARKER.findall(text)) == 3)


def compare_course(page, tally):
    """The course."""
    lessons = lessons_of(COURSE.read_text())
    tally.hold("lessons", len(lessons) == LESSONS, len(lessons))
    with Module(page) as module:
        compare_lessons(module, lessons, tally)
