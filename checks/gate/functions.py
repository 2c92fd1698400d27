"""The functions of a source file, by the layout that `rt fmt` gives it, named as the prover does.

An item ends at the first line after its head that begins with a brace in the item's own column; a
function without a body ends before the next line in that column.
"""
import re
from collections import Counter
from dataclasses import dataclass
from pathlib import PurePosixPath

SHOWN = r'( *)(?:pub(?:\([^)]*\))? )?(?:const )?(?:unsafe )?(?:extern "C" )?'
FUNCTION = re.compile(rf"{SHOWN}fn (\w+)")
HOLDER = re.compile(rf"{SHOWN}(impl|trait|mod)\b *(.*) \{{$")
TYPE = re.compile(rf"(?m)^{SHOWN}(?:struct|enum|trait) (\w+)")
# What stands in a function's own column before its body ends.
INNER = ("{", ")", "where")


@dataclass(frozen=True)
class Function:
    """A function: its file, its name below the crate, its first line and its last, and where its
    body begins; lines are counted from 0."""

    path: str
    name: str
    first: int
    body: int
    last: int
    is_in_a_cycle: bool

    def has(self, line):
        """Whether a line stands in it."""
        return self.first <= line <= self.last


def indent_of(line):
    """How many blanks a line begins with."""
    return len(line) - len(line.lstrip(" "))


def end_of(lines, head):
    """The last line of the item that begins at a line."""
    column, last = indent_of(lines[head]), head
    if lines[head].endswith((";", "}")):
        return head
    for at in range(head + 1, len(lines)):
        line = lines[at]
        if line.strip() and indent_of(line) <= column and not line.lstrip().startswith(INNER):
            return at if line[column:].startswith("}") and indent_of(line) == column else last
        last = at if line.strip() else last
    return last


def body_of(lines, head, last):
    """The line at whose end the body of a function begins."""
    opening = " " * indent_of(lines[head]) + "{"
    whole = [at for at in range(head, last + 1) if lines[at] == opening]
    ends = [at for at in range(head, last + 1) if lines[at].endswith(("{", "}"))]
    return (whole or ends or [last])[0]


def halves(text):
    """What stands between a text's leading angle brackets, and the rest."""
    depth = 0
    for at, byte in enumerate(text):
        depth += (byte == "<") - (byte == ">" and text[at - 1] != "-")
        if not depth:
            return (text[1:at], text[at + 1 :].strip()) if at else ("", text)
    return "", text


def base_of(text):
    """The last name of a type's or a trait's path, without arguments."""
    return re.split(r"\W", text.partition("<")[0].strip().rpartition("::")[2])[0]


def arguments_of(text):
    """The names among the arguments of a type, lifetimes left out."""
    return re.findall(r"(?<!')\b[A-Za-z]\w*", text.partition("<")[2])


def parameters_of(generics):
    """The type parameters that an impl declares."""
    found, depth = [""], 0
    for byte in generics:
        depth += (byte == "<") - (byte == ">")
        if byte == "," and not depth:
            found.append("")
        else:
            found[-1] += byte
    return {re.split(r"\W", it.strip())[0] for it in found} - {""}


def name_of_impl(text):
    """What the prover calls an impl: `LinkRead`, `Link+Buffered+W`, or its type alone."""
    generics, rest = halves(text)
    parameters = parameters_of(generics)
    trait, _, kind = rest.partition(" where ")[0].rpartition(" for ")
    if base_of(trait) == "Drop":
        return base_of(kind)
    if trait:
        added = [it for it in arguments_of(trait) if it not in parameters]
        return base_of(kind) + base_of(trait) + "".join(added)
    found = arguments_of(kind)
    return base_of(kind) + ("" if {*found} <= parameters else "".join(f"+{it}" for it in found))


def module_of(path):
    """The module of a file below src/, as a list of names; the root's is empty."""
    parts = PurePosixPath(path).with_suffix("").parts[1:]
    return [] if parts in (("lib",), ("main",)) else [*parts]


def attributes_above(lines, head):
    """The lines of attributes and comments right above an item."""
    at = head
    while at and re.match(r" *(#\[|//)", lines[at - 1]):
        at -= 1
    return lines[at:head]


def homes_in(texts):
    """The module of each type that a crate's files, texts by their paths, define once."""
    found = [(it[2], path) for path, text in texts.items() for it in TYPE.finditer(text)]
    counts = Counter(name for name, _ in found)
    return {name: module_of(path) for name, path in found if counts[name] == 1}


def functions_in(path, text, homes):
    """The functions of a file, in order; methods of a type stand in the module of the type."""
    lines, holders, found = text.split("\n"), [], []
    for at, line in enumerate(lines):
        holders = [it for it in holders if at <= it[0]]
        holder, function = HOLDER.match(line), FUNCTION.match(line)
        if holder:
            what = name_of_impl(holder[3]) if holder[2] == "impl" else base_of(holder[3])
            holders.append((end_of(lines, at), what))
        elif function:
            last, names = end_of(lines, at), [it for _, it in holders]
            module = homes.get(names[0], module_of(path)) if names else module_of(path)
            cycle = any("#[cycle" in it for it in attributes_above(lines, at))
            name = "::".join([*module, *names, function[2]])
            found.append(Function(path, name, at, body_of(lines, at, last), last, cycle))
    return found
