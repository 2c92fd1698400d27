"""Begins languages by `ydebug init`, builds each by `ycc`, and has its tests run.

    begun [ycc=PATH] [ydebug=PATH]

For each name, also one that a target or another file has, `make check` has to pass without a
warning of the C compiler, the grammar has no conflicts, the file of messages is what `ydebug
errors` writes of it, with a message for each state, and an accepted input among those to be
rejected fails. Where files get no longer than so many bytes, as on a full disk, nothing is left of
the folder. The last line is `N passed, M failed`.
"""
import re
import resource
import signal
import subprocess
import tempfile
from functools import partial
from pathlib import Path

from checks.shared.arguments import asked
from checks.shared.tally import Tally

NAMES = ("sums", "main", "scan", "tests", "check", "clean", "Makefile", "a-1_B")
# The most bytes of a file where a disk counts as full.
MOST = (0, 100, 1_000, 2_000, 3_000)
FLAGS = "-Wall -Wextra -pedantic -Werror"
PASSED = re.compile(r"^(\d+) passed, 0 failed$", re.M)
SECONDS = 120


def ran(words, room, **how):
    """The status of a run, and all that it wrote."""
    both = {"stdout": subprocess.PIPE, "stderr": subprocess.STDOUT}
    made = subprocess.run(words, cwd=room, timeout=SECONDS, check=False, text=True, **both, **how)
    return made.returncode, made.stdout


def files_of(room):
    """All files below a folder, with their bytes."""
    files = (it for it in Path(room).rglob("*") if it.is_file())
    return {str(it.relative_to(room)): it.read_bytes() for it in files}


def wrong_checks(name, room, make):
    """What is wrong with the checks of a language, as it is and with a test that must fail."""
    status, said = make("check")
    if status or not PASSED.search(said) or f"build/{name} agrees" not in said:
        yield f"make check: status {status}\n{said}"
    Path(room, "tests/bad/fine.txt").write_text("print 1;\n")
    status, said = make("check")
    if not status or "FAILED bad/fine.txt: accepted after " not in said:
        yield f"make check with a test that must fail: status {status}\n{said}"
    status, said = make("check", "YDEBUG=true")
    if not status or f"build/{name} accepts tests/bad/fine.txt" not in said:
        yield f"make check by the program alone: status {status}\n{said}"
    Path(room, "tests/bad/fine.txt").unlink()


def wrong_language(name, programs, room):
    """What is wrong with a new language."""
    status, said = ran([programs["ydebug"], "init", name], room)
    if status:
        yield f"ydebug init: status {status}\n{said}"
        return
    room = Path(room, name)
    first = files_of(room)
    own = [f"YCC={programs['ycc']}", f"YDEBUG={programs['ydebug']}", f"CFLAGS={FLAGS}"]
    make = lambda *words: ran(["make", *own, *words], room)
    yield from wrong_checks(name, room, make)
    status, said = make("conflicts")
    if status or f"{name}.y: no conflicts" not in said:
        yield f"make conflicts: status {status}\n{said}"
    words = ["errors", f"{name}.y", "--lex", f"{name}.lex", "--messages", f"{name}.messages"]
    for more in ("--complete", "--update"):
        status, said = ran([programs["ydebug"], *words, more], room)
        if status:
            yield f"ydebug errors {more}: status {status}\n{said}"
    status, said = make("clean")
    if status or files_of(room) != first:
        yield f"make clean: status {status}\n{said}other files than at first\n"


def full_disk(most):
    """No file gets longer, and an attempt fails as on a disk that is full."""
    signal.signal(signal.SIGXFSZ, signal.SIG_IGN)
    resource.setrlimit(resource.RLIMIT_FSIZE, (most, most))


def wrong_on_a_full_disk(most, programs, room):
    """What is wrong with a language that can't be written."""
    how = {"preexec_fn": partial(full_disk, most)}
    status, said = ran([programs["ydebug"], "init", "sums"], room, **how)
    if status != 3 or not said.startswith("ydebug: error: cannot make sums/"):
        yield f"status {status}\n{said}"
    if left := sorted(str(it) for it in Path(room).iterdir()):
        yield f"left: {' '.join(left)}\n"


def main(words):
    """Begins all of these."""
    given, tally = asked(__doc__, words, ("ycc", "ydebug")), Tally()
    programs = {name: str(Path(it).absolute()) for name, it in given.programs.items()}
    for wrong, wanted in ((wrong_language, NAMES), (wrong_on_a_full_disk, MOST)):
        for it in wanted:
            with tempfile.TemporaryDirectory(prefix="begun-") as room:
                title = f"a language {it}" if wrong is wrong_language else f"files of {it} bytes"
                tally.take(title, list(wrong(it, programs, room)))
    return tally.end()
