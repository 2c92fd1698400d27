"""Prints how many million tokens a second the driver in C and a parser of byacc take.

    bench-drivers [yacc=PATH] GRAMMAR TOKENS [TIMES]

Both parse the tokens, TIMES of them in a row, without a lexer: a sentence of a grammar with a list
at its top. The driver calls a function at each reduction; the actions of byacc are empty. Needs
byacc and a C compiler (CC, or cc).
"""
import array
import sys
import tempfile
from pathlib import Path

from checks.shared import running
from checks.shared.arguments import asked
from checks.shared.libraries import compiler
from checks.shared.places import DRIVERS
from checks.shared.spelling import bare, names_of
from checks.shared.table_file import table_of

# Both programs run by turns, and the best run of each counts.
TURNS, BOTH = 10, (["./ours", "numbers", "y.tab"], ["./theirs", "numbers"])


def run(folder, *words):
    """What a program writes, which ends well."""
    return running.ran(words, folder, check=True).stdout


def lay(folder, yacc, grammar, tokens, times):
    """The grammar without its actions, its table, and the numbers of the tokens."""
    (folder / "g.y").write_bytes(bare(Path(grammar).read_bytes(), b""))
    run(folder, yacc, "g.y")
    table = table_of((folder / "y.tab").read_bytes())
    names = names_of(Path(tokens).read_bytes())
    numbers = array.array("i", [table.numbers[it] for it in names] * times)
    (folder / "numbers").write_bytes(numbers.tobytes())


def build(folder):
    """Both parsers."""
    make = [compiler(), "-O2", "-w", "-I", str(DRIVERS / "c"), "-I", str(folder)]
    speed = str(DRIVERS / "c/speed.c")
    run(folder, *make, "-o", "ours", speed, str(DRIVERS / "c/ydriver.c"))
    run(folder, "byacc", "-b", "b", "g.y")
    run(folder, *make, '-DPARSER="b.tab.c"', "-o", "theirs", speed)


def main(words):
    """Times both parsers."""
    given = asked(__doc__, words, ("yacc",))
    if len(given.words) < 2:
        sys.exit(__doc__)
    grammar, tokens, times = [*given.words, "100000"][:3]
    with tempfile.TemporaryDirectory() as name:
        folder = Path(name)
        lay(folder, given.programs["yacc"], grammar, tokens, int(times))
        build(folder)
        turns = [[float(run(folder, *words)) for words in BOTH] for _ in range(TURNS)]
    ours, theirs = map(max, zip(*turns))
    print(f"million tokens a second: driver {ours}, byacc {theirs}, {ours / theirs:.2f} of it")
