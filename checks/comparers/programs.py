"""Compares `yacc` and `ystep` with plain machines, which know nothing of them, on random grammars.

    compare [yacc=PATH] [ystep=PATH] [--seconds N] [--turns N] [--seed N]

Each grammar's table and conflicts are compared byte for byte, and then the replies of some sessions
over it. The first difference ends the run: its files stay in a folder that is named. The last line
is `N passed, M failed`: grammars.
"""
import random
import shutil
import tempfile
from collections import Counter
from pathlib import Path

from checks.shared.arguments import asked
from checks.shared.grammars import grammar_of, text_of, tokens_of
from checks.shared.machine import replies_of
from checks.shared.running import ran, turns
from checks.shared.tables import Tables
from checks.shared.tally import Tally

ODD = ["run 0", "run", "steps", "", "back 01x", "to 99999999", "run 1 ", " step", "insert"]


def command_of(grammar, rng):
    """A command line."""
    drawn = {
        "step": 4,
        f"run {rng.randint(1, 9)}": 4,
        f"back {rng.randint(1, 6)}": 2,
        f"to {rng.randint(0, 25)}": 2,
        "show": 2,
        "tree": 1,
        "unwind": 1,
        "drop": 1,
        "insert " + rng.choice([*grammar.names, "zz", "NUM NUM", "NUM "]): 2,
        rng.choice(ODD): 1,
    }
    return rng.choices(list(drawn), drawn.values())[0]


def commands_of(grammar, rng):
    """The command lines of a session."""
    some = [command_of(grammar, rng) for _ in range(rng.randint(5, 30))]
    return [*some, "run 60", "tree", "show", "unwind", "show"]


def differs(folder, wanted, made):
    """Whether what was made isn't what was wanted; both are then kept."""
    if wanted != made:
        (folder / "wanted").write_text(wanted)
        (folder / "made").write_text(made)
    return wanted != made


def table_is_right(folder, yacc, grammar):
    """Whether `yacc` writes the table and says the conflicts, or refuses an unproductive file."""
    made = ran([yacc, "grammar.y"], folder)
    if not grammar.is_productive():
        return made.returncode == 1 and made.stderr.startswith("yacc: G11 at line ")
    tables, file = Tables(grammar), folder / "y.tab"
    text = f"{made.returncode} {made.stderr}" + (file.read_text() if file.exists() else "")
    return not differs(folder, f"0 {tables.conflicts_line()}{tables.text()}", text)


def session_is_right(folder, ystep, tables, rng, counts):
    """Whether `ystep` replies so to some commands over some tokens."""
    tokens, commands = tokens_of(tables.grammar, rng), commands_of(tables.grammar, rng)
    (folder / "tokens").write_text(text_of(tables.grammar, tokens))
    (folder / "commands").write_text("".join(f"{line}\n" for line in commands))
    wanted = replies_of(tables, tokens, commands)
    counts["sessions"] += 1
    counts["with an error"] += " detect\n" in wanted
    counts["accepted"] += " accept\n" in wanted
    made = ran([ystep, "grammar.y", "tokens"], folder, (folder / "commands").read_text())
    return not differs(folder, f"0 {wanted}", f"{made.returncode} {made.stdout}")


def is_right(folder, yacc, ystep, rng, counts):
    """Whether both programs do what the plain machines do, on one grammar."""
    grammar = grammar_of(rng)
    (folder / "grammar.y").write_text(grammar.text)
    (folder / "y.tab").unlink(missing_ok=True)
    if not table_is_right(folder, yacc, grammar):
        return False
    if not grammar.is_productive():
        counts["refused"] += 1
        return True
    tables = Tables(grammar)
    counts["tables"] += 1
    counts["with conflicts"] += bool(tables.conflicts_line())
    return all(session_is_right(folder, ystep, tables, rng, counts) for _ in range(3))


def compared(programs, folder, given):
    """Compares grammars for some seconds, up to the first difference: the tally, and the counts."""
    rng, counts, tally = random.Random(given.seed), Counter(), Tally()
    for turn in turns(given):
        fits = is_right(folder, *programs, rng, counts)
        tally.take(f"grammar {turn}", [] if fits else [f"its files are in {folder}\n"])
        if not fits:
            break
    return tally, counts


def main(words):
    """Compares both programs with the machines."""
    given = asked(__doc__, words, ("yacc", "ystep"), seconds=60.0, turns=0, seed=1)
    folder = Path(tempfile.mkdtemp())
    tally, counts = compared([given.programs[it] for it in ("yacc", "ystep")], folder, given)
    if not tally.failed:
        shutil.rmtree(folder)
    print(", ".join(f"{number} {what}" for what, number in counts.items()))
    return tally.end()
