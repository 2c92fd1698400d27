"""Messages for errors: grammars with files of messages, inputs, and what `ydebug` says of each."""
import re
from itertools import count
from typing import NamedTuple

from checks.parsers.pairs import taken
from checks.scenarios.folders import Scenario
from checks.scenarios.pages import blocks_of
from checks.shared.places import DRIVERS, TUTORIAL
from checks.shared.spelling import names_of

# What stands in place of the messages that `ydebug errors` writes, one after the other.
TEXTS = (
    "no $0 here",
    "$expected can come,\nand not $0",
    "$$5, $x and $0$",
    "$expected, please; $99$0 isn't",
)
# Those with entries of the stack, which stand by their tokens in `ydebug` and in parsers in C; in
# drivers by their symbols.
ENTRIES = (*TEXTS, "after $1, after $2$3", "$2 $1, and $0: $expected")
# A block of such a file, and the first line of one.
BLOCK = re.compile(r"((?:.+\n)+)\nunexpected \$0, expected \$expected\n\n?")
# A file of bison with strings for its tokens, one of them for the end, and a string without one.
FOREIGN = b"""\
%token NUM "number" NAME LE "<=" END 0 "end of input"
%%
tests : test | tests ';' test ;
test : value "<=" value | "not" test ;
value : NUM | NAME | '(' value ')' ;
"""
INPUT = re.compile(r"(?m)^(.+)\n## state")
REJECTED = re.compile(rb"input: error: rejected at token \d+: (.*?)\n  (?:after|at the start)", re.DOTALL)


def grammars():
    """The grammars for which messages are made: of the calculators and of the tutorial's queries."""
    blocks = blocks_of(TUTORIAL.read_text())
    queries = ["".join(lines) for kind, name, lines, _ in blocks
               if kind == "file" and name == "queries.y"]
    return [(DRIVERS / "calculator.y").read_bytes(), *(it.encode() for it in queries[:1])]


def languages():
    """These grammars and a file of bison, each with the options that it is given with."""
    return [*((it, []) for it in grammars()), (FOREIGN, ["--from", "bison"])]


def with_texts(listed, texts):
    """A file of messages with these texts, and without every fifth block."""
    numbers = count()

    def changed(found):
        """A block with another text."""
        number = next(numbers)
        return "" if number % 5 == 4 else f"{found[1]}\n{texts[number % len(texts)]}\n\n"

    return BLOCK.sub(changed, listed.decode()).encode()


def inputs_of(listed):
    """The inputs of a file that `ydebug errors` writes, without the end."""
    return [f"{it.removesuffix('$end').rstrip()}\n".encode() for it in INPUT.findall(listed.decode())]


def run_of(words, files):
    """What is run with these files."""
    return Scenario(DRIVERS, words, b"", files, {}, {}, {})


def told_by(way, programs, runs):
    """What comes back of runs."""
    return [taken(it) for it in way.run_all(runs, programs)]


class Told(NamedTuple):
    """A grammar with messages: the file of them, these as data, a table and tokens for each input,
    and what `ydebug check --messages` says of it."""

    grammar: bytes
    messages: bytes
    data: bytes
    cases: list
    texts: list


def table_of(files, way, programs, options):
    """The table of a grammar, or of what a file of bison becomes."""
    if options:
        imported = told_by(way, programs, [run_of(["ydebug", "import", "grammar"], files)])[0]
        files = {"grammar": imported["stdout"]}
    return told_by(way, programs, [run_of(["yacc", "grammar"], files)])[0]["left/y.tab"]


def told_of(grammar, way, programs, options=(), texts=TEXTS):
    """What `ydebug` says of the inputs of a grammar, which is given with these options."""
    files = {"grammar": grammar}
    table = table_of(files, way, programs, options)
    listing = told_by(way, programs, [run_of(["ydebug", "errors", "grammar", *options], files)])[0]
    files["messages"] = with_texts(listing["stdout"], texts)
    words = ["ydebug", "errors", "grammar", "--messages", "messages", "--table", "y.msg", *options]
    made = told_by(way, programs, [run_of(words, {**files, "y.msg": b""})])[0]
    inputs = inputs_of(listing["stdout"])
    words = ["ydebug", "check", "grammar", "input", "--messages", "messages", *options]
    said = told_by(way, programs, [run_of(words, {**files, "input": it}) for it in inputs])
    wanted = [REJECTED.match(it["stdout"]) for it in said]
    cases = [(table, names_of(it)) for it in inputs]
    texts = [it[1].decode().replace("\n", "\\n") if it else None for it in wanted]
    return Told(grammar, files["messages"], made["left/y.msg"], cases, texts)
