"""Prints how long a million steps behind a handle of the library take, and as many undos.

    bench-handles [ystep=PATH] [GRAMMAR TOKENS]

Without GRAMMAR it is one whose parse goes on without an end. Beside it `ystep` runs over the same
files, forward and back, with its replies thrown away: start, reading, tables and writing are in its
time and not in the other. It needs bin/libsulderko.a (make library) and a C compiler (CC, or cc).
"""
import resource
import subprocess
import tempfile
from pathlib import Path

from checks.shared import running
from checks.shared.arguments import asked
from checks.shared.libraries import compiler
from checks.shared.places import DATA, TOP

TURNS = 7
ENDLESS = "%left 'x'\n%left HI\n%%\ns : e s | 'x' ;\ne : %prec HI ;\n"
COMMANDS = b"to 1000000\nto 0\n"


def lay(room, words):
    """The paths of a grammar and of its tokens."""
    if len(words) == 2:
        return [str(Path(it).resolve()) for it in words]
    (room / "g.y").write_text(ENDLESS)
    (room / "tokens").write_text("'x'\n")
    return [str(room / "g.y"), str(room / "tokens")]


def build(room):
    """The program that steps behind a handle."""
    make = [compiler(), "-O2", "-I", str(TOP / "include"), "-o", str(room / "handles")]
    source = str(DATA / "times/handles.c")
    running.ran([*make, source, str(TOP / "bin/libsulderko.a")], room, check=True)


def stepped(room, files):
    """The steps behind a handle, and the seconds of a processor forward and back."""
    steps, *times = running.ran([str(room / "handles"), *files], room, check=True).stdout.split()
    return int(steps), *map(float, times)


def spent(words):
    """The seconds of a processor that a program takes whose replies are thrown away."""
    before = resource.getrusage(resource.RUSAGE_CHILDREN)
    subprocess.run(words, input=COMMANDS, stdout=subprocess.DEVNULL, check=True)
    after = resource.getrusage(resource.RUSAGE_CHILDREN)
    return after.ru_utime + after.ru_stime - before.ru_utime - before.ru_stime


def main(words):
    """Times both, one after the other."""
    given = asked(__doc__, words, ("ystep",))
    with tempfile.TemporaryDirectory(prefix="handles-") as name:
        room = Path(name)
        files = lay(room, given.words)
        build(room)
        turns = [
            (*stepped(room, files), spent([given.programs["ystep"], *files])) for _ in range(TURNS)
        ]
    steps = turns[0][0]
    forward, back, whole = (min(it[at] for it in turns) for at in (1, 2, 3))
    each = 1e9 * forward / steps, 1e9 * back / steps
    print(f"{steps} steps: {forward:.3f} s, {each[0]:.0f} ns each; back {back:.3f} s, {each[1]:.0f} ns")
    print(f"ystep, with all that it does: {whole:.3f} s; {(forward + back) / whole:.2f} of it")
