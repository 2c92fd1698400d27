"""Gives `ydebug` random command lines over random grammars: no crash, and every line is answered.

    babble [ydebug=PATH] [--lines N] [--seed N]

After each line stands a word that is no command; what comes before its reply is the answer to the
line. A session must end with status 0 and nothing on standard error. Some sessions write their
tokens over their files, and read these again. Where a parse is endless, its derivation and its
whole tree are left out: they grow with its square. The first session that is at fault ends the
run: its files stay in a folder that is named. The last line is `N passed, M failed`: sessions.
"""
import os
import random
import re
import shutil
import tempfile
from concurrent.futures import ProcessPoolExecutor
from functools import partial
from pathlib import Path

from checks.shared import running
from checks.shared.arguments import asked
from checks.shared.grammars import grammar_of, text_of, tokens_of
from checks.shared.tally import Tally

VERBS = """step back to run where stack upcoming state expected why rule symbol grammar tree
derivation history insert drop save save! conflicts reload help continue next finish break
breaks delete list errors n c l bt""".split()
CONDITIONS = "shift reduce error conflict state token depth accept".split()
NUMBERS = [0, 1, 2, 3, 5, 9, 20, 100, 1_000_000, 1_000_001]
ODD = ["", " ", "\t", "until", "all", "\x7f", "é", "''", "'", "%", "-1", "+1", "0x1"]
ODD += ["9" * 30, "x" * 5000]
FILES = ["saved0", "saved1", "saved2", "tokens", "grammar.y", "no/such/folder", "."]
MARK = re.compile(r"^(?:\x1b\[\d+m)*#(\d+) is no command; .*$", re.MULTILINE)
LINES_OF_A_SESSION = 100
LONG = 10_000


def number(rng):
    """A number of a command line."""
    return str(rng.choice(NUMBERS))


def name(grammar, rng):
    """A name of a command line."""
    return rng.choice([*grammar.names, "error", "$end", "$accept", "zz", "s", number(rng)])


def cut(word, rng):
    """A word, or a beginning of it."""
    return word[: rng.randint(1, len(word))] if rng.random() < 0.4 else word


def condition(grammar, rng):
    """A condition of a move."""
    return f"{cut('until', rng)} {cut(rng.choice(CONDITIONS), rng)} {name(grammar, rng)}"


def line_of(grammar, rng):
    """A command line."""
    verb = cut(rng.choice(VERBS), rng)
    words = rng.choice(
        [
            "",
            "",
            number(rng),
            name(grammar, rng),
            condition(grammar, rng),
            rng.choice(ODD),
            f"{number(rng)} all",
            "all",
        ]
    )
    if verb.startswith("sav"):
        words = rng.choice(FILES)
    return f"{verb} {words}" if rng.random() < 0.95 else rng.choice(ODD)


def run(ydebug, folder, given):
    """A session over the files of a folder."""
    return running.ran([ydebug, "grammar.y", "tokens"], folder, given.encode())


def is_square(line):
    """Whether what a line writes may grow with the square of an endless parse."""
    return line.startswith("de") or line.startswith("tr") or "all" in line


def lines_of(ydebug, folder, grammar, rng):
    """The lines of a session; none where the grammar or the tokens are refused."""
    probe = run(ydebug, folder, "run\nwhere\n")
    if probe.returncode == 1 and probe.stderr and not probe.stdout:
        return None
    is_long = any(int(it) >= LONG for it in re.findall(rb"(?m)^ *(\d+)  ", probe.stdout))
    lines = [line_of(grammar, rng).replace("\n", " ") for _ in range(LINES_OF_A_SESSION)]
    return [line for line in lines if not (is_long and is_square(line))]


def fault_of(ydebug, folder, lines):
    """Why a session doesn't answer all of its lines; none where it does."""
    ran = run(ydebug, folder, "".join(f"{line}\n#{at}\n" for at, line in enumerate(lines)))
    if ran.returncode != 0 or ran.stderr:
        return f"status {ran.returncode}: {ran.stderr.decode(errors='replace')}"
    parts = MARK.split(ran.stdout.decode(errors="replace"))
    if parts[1::2] != [str(at) for at in range(len(lines))]:
        return "a line is missing"
    for line, answer in zip(lines, parts[::2]):
        if line.strip() and not answer.strip():
            return f"no answer to {line!r}"
    return None


def session(at, ydebug, seed):
    """How many lines a session has given, and what was at fault in which folder."""
    rng = random.Random(f"{seed} {at}")
    folder = Path(tempfile.mkdtemp(prefix="babble"))
    grammar = grammar_of(rng)
    (folder / "grammar.y").write_text(grammar.text)
    (folder / "tokens").write_text(text_of(grammar, tokens_of(grammar, rng)))
    lines = lines_of(ydebug, folder, grammar, rng) or []
    fault = lines and fault_of(ydebug, folder, lines)
    if fault:
        (folder / "lines").write_text("\n".join(lines))
        return len(lines), f"{folder}: {fault}"
    shutil.rmtree(folder)
    return len(lines), None


def sessions(wanted, given, pool):
    """How many sessions and lines were given, and the first fault, which ends the run."""
    at = lines = 0
    while lines < wanted:
        some = range(at, at + 40)
        for count, fault in pool.map(partial(session, **given), some):
            if fault:
                return at, lines, fault
            at, lines = at + 1, lines + count
    return at, lines, None


def main(words):
    """Gives random command lines to the debugger."""
    given = asked(__doc__, words, ("ydebug",), lines=100_000, seed="1")
    how = {"ydebug": given.programs["ydebug"], "seed": given.seed}
    with ProcessPoolExecutor(max(1, os.cpu_count() // 2)) as pool:
        count, lines, fault = sessions(given.lines, how, pool)
    tally = Tally(count)
    if fault:
        tally.take("a session", [f"{fault}\n"])
    print(f"{lines} lines, {count} sessions")
    return tally.end()
