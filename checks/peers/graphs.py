"""Graphs of automata as byacc and `ycc` draw them.

Each numbers states and symbols in its own way: so states are numbered anew, as a walk over ways in
the order of their names meets them, and the ways of a state are put in the order of these. All else
has to be the same, byte for byte, except comments at the head.
"""
import re

# How bison and byacc draw a state and a way, each beside the number that it is about.
STATE = re.compile(r'(?:  |\tq)(\d+) \[label="')
WAY = re.compile(r'(?:  |\tq)(\d+) -> q?(\d+) \[(?:style=\w+)? ?(?:label="(.*)")?\];?$')
RULE = re.compile(r'(?:  (\d+) -> "\d+| "(\d+))R')
# Each number of a state in a line: the first one of it, one that a way leads to, one in a label.
NUMBERS = re.compile(r'(?<=^  )\d+|(?<=^ ")\d+|(?<=^\tq)\d+|(?<= -> )\d+|(?<= -> ["q])\d+'
                     r'|(?<=label="State )\d+|(?<=label=")\d+(?=:)')


def walked(lines):
    """The number that each state gets."""
    ways = {}
    for line in lines:
        way = WAY.match(line)
        if way:
            ways.setdefault(way[1], []).append((way[3] or "", way[2]))
    numbers = {"0": 0}
    for state in (waiting := ["0"]):
        for _, to in sorted(ways.get(state, [])):
            if to not in numbers:
                numbers[to] = len(numbers)
                waiting.append(to)
    return numbers


def place_of(line, numbers):
    """Where a line belongs: by its state, and a way by its name."""
    state, way, rule = STATE.match(line), WAY.match(line), RULE.match(line)
    if state:
        return 1, numbers[state[1]], 0, ""
    if way:
        part = 2 if line.startswith("\t") else 1
        return part, numbers[way[1]], 1, way[3] or ""
    if rule:
        return 1, numbers[rule[1] or rule[2]], 2, ""
    return 3 if line == "}" else 0, 0, 0, ""


def drawn(text):
    """The lines of a graph, with states numbered anew."""
    lines = [line for line in text.split("\n") if not line.startswith("//")]
    numbers = walked(lines)
    lines.sort(key=lambda line: place_of(line, numbers))
    return [NUMBERS.sub(lambda found: str(numbers[found[0]]), line) for line in lines]
