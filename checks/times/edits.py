"""Times how long `ydebug serve` takes from an edit to what is said of the file.

    bench-edits [--turns N] [ydebug=PATH] [FILE..]

The grammars are those that are named, or else those that `bench-grammar queries` writes for 50 and
275. An edit puts a blank after a line in the middle, or takes it away. Beside it stand `ydebug
conflicts` and `ydebug check` with an empty list of tokens over the same file. Each time is the
least of N, five unless given: of an edit by the clock, and of all in seconds of a processor, by
which the ratios are, since these say more on a machine that does other work.
"""
import os
import resource
import subprocess
import tempfile
import time
from pathlib import Path

from checks.editors.client import Client
from checks.shared.arguments import asked
from checks.times.grammars import queries

SIZES = 50, 275
URI = "file:///grammar.y"


def used_by(process):
    """The seconds of a processor that a running process has taken."""
    fields = Path(f"/proc/{process.pid}/stat").read_text().rpartition(")")[2].split()
    return (int(fields[11]) + int(fields[12])) / os.sysconf("SC_CLK_TCK")


def edits(text, turns):
    """A change for each turn: a blank that comes, and that goes again."""
    line = text.count("\n") // 2
    end = len(text.split("\n")[line])
    for turn in range(turns):
        start, after = ({"line": line, "character": end + it} for it in (0, turn % 2))
        yield {"range": {"start": start, "end": after}, "text": "" if turn % 2 else " "}


def edited(program, text, turns):
    """The seconds by the clock and of a processor from an edit to what is said, the least."""
    clock, taken = [], []
    with Client(program) as client:
        client.open(URI, text)
        for version, change in enumerate(edits(text, turns), 1):
            begun, before = time.perf_counter(), used_by(client.process)
            client.change(URI, version, [change])
            client.said(URI, version)
            clock.append(time.perf_counter() - begun)
            taken.append(used_by(client.process) - before)
    return min(clock), min(taken)


def ran(words, turns):
    """The seconds of a processor of a run whose output is thrown away, the least."""
    taken = []
    for _ in range(turns):
        before = resource.getrusage(resource.RUSAGE_CHILDREN)
        subprocess.run(words, stdout=subprocess.DEVNULL, stderr=subprocess.DEVNULL)
        after = resource.getrusage(resource.RUSAGE_CHILDREN)
        taken.append(after.ru_utime + after.ru_stime - before.ru_utime - before.ru_stime)
    return min(taken)


def main(words):
    """Times each grammar."""
    given = asked(__doc__, words, ("ydebug",), turns=5)
    program, turns = given.programs["ydebug"], given.turns
    texts = {path: Path(path).read_text() for path in given.words}
    texts = texts or {f"queries {size}": queries(size) for size in SIZES}
    with tempfile.TemporaryDirectory(prefix="edits-") as name:
        file, tokens = Path(name) / "grammar.y", Path(name) / "tokens"
        tokens.write_text("")
        for title, text in texts.items():
            file.write_text(text)
            clock, edit = edited(program, text, turns)
            check = ran([program, "check", str(file), str(tokens)], turns)
            whole = ran([program, "conflicts", str(file)], turns)
            ratios = f"{edit / check:.2f} of check, {edit / whole:.2f} of conflicts"
            print(f"{title}: {clock * 1000:.0f} ms, {edit:.2f} s: {ratios}", flush=True)
