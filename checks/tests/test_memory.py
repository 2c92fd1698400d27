"""Runs without memory: ends that are none, lines that ask for memory, answers that are missing."""
import contextlib
import io
import os
from collections import Counter
from functools import partial
from unittest import mock

from checks.debugger import babble
from checks.debugger import refuse as debugger
from checks.hostile.sessions import SHORT
from checks.memory import allocations, refuse
from checks.memory.allocations import Line
from checks.scenarios.cases import scenario
from checks.shared import libraries
from checks.shared.libraries import compiler, library_in, refusing
from checks.shared.running import ran
from checks.tests.fakes import Planted, changed

OLD, NEW = b"old\n", b"one\ntwo\n"
USUAL = {"stdout": b"", "message": b"", "status": b"0\n"}
NO_MEMORY = {"stdout": b"", "message": b"yacc: no memory\n", "status": b"3\n"}


class Ends(Planted):
    """How a run of `yacc` may end."""

    def way(self, made):
        """Whether an end is wrong."""
        back = {"left/g.y": b"%%", "left/y.tab": NEW}
        it = scenario(["yacc", "g.y"], {"g.y": b"%%", "y.tab": OLD}, **back)
        return refuse.way_of(made, it, {}) is None

    def test_each_end(self):
        """Other messages and statuses, an output with more, a file gone, changed or too many."""
        usual = {**USUAL, "left/g.y": b"%%", "left/y.tab": NEW}
        refused = {**NO_MEMORY, "left/g.y": b"%%", "left/y.tab": OLD}
        wrong = [{**usual, "left/y.tab": NEW[:-1]}, {**usual, "status": b"3\n"}]
        wrong += [{**usual, "stdout": b"x"}, {**usual, "message": b"x"}]
        self.each_caught(self.way, usual, *wrong)
        wrong = [{**refused, "status": it} for it in (b"0\n", b"1\n", b"signal 11\n")]
        wrong += [{**refused, "stdout": b"x"}, {**refused, "message": b"ystep: no memory\n"}]
        wrong += [{**refused, "left/y.tab": b"other\n"}, {**refused, "left/more": b"one"}]
        wrong += [
            {**refused, "left/g.y": b"%"}, {n: t for n, t in refused.items() if n != "left/g.y"}
        ]
        self.each_caught(self.way, refused, *wrong)
        self.each_caught(
            self.way, {**refused, "left/y.tab": b"one\n"}, {**refused, "left/y.tab": b"two"}
        )


# A session that replies by a list, as `ystep` does.
SESSION = f"replies = {dict(SHORT.replies)!r}\n" + r"""
for line in sys.stdin.read().splitlines():
    if line in replies:
        sys.stdout.write(replies[line])
    elif line == "run 1":
        sys.stdout.write("1 shift 'x'\n")
"""


class Sessions(Planted):
    """Sessions that go on after a step that was refused."""

    def test_each_reply(self):
        """A refused step says so once; all else is as usual."""
        programs = {"ystep": self.program("ystep", SESSION)}
        it, refuse.KNOWN = SHORT.scenario(), {}
        usual = it.wanted
        lines = it.wanted["stdout"].decode()

        def look(text):
            """Whether a text of replies is wrong."""
            return refuse.way_of({**usual, "stdout": text.encode()}, it, programs) is None

        self.each_caught(
            look, lines, lines[:-1], lines + "no memory\n", lines.replace("2 r", "3 r", 1)
        )
        none = "no memory\nat start\n"
        self.each_caught(look, lines, lines.replace("1 shift 'x'\n", none, 1))
        other = {**usual, "stdout": b"no memory\n", "status": b"1\n"}
        self.assertIsNone(refuse.way_of(other, it, programs))


CALLS = ["1 shift 'x'", "2 reduce 1", "1 undo reduce 1", "0 undo shift 'x'"]


class Calls(Planted):
    """The calls by themselves."""

    def test_calls(self):
        """A refused call is made again; where it is refused twice, all steps are undone."""
        usual = "".join(f"{line}\n" for line in CALLS).encode()
        it = scenario(["calls", "g", "a"], {}, stdout=usual)

        def look(made):
            """Whether an end is wrong."""
            lines, status = made
            text = "".join(f"{line}\n" for line in lines).encode()
            return refuse.way_of({**USUAL, "stdout": text, "status": status}, it, {}) is None

        once = ["step: no memory", *CALLS]
        self.each_caught(look, (once, b"0\n"), (once, b"3\n"), (once[:-1], b"0\n"))
        twice = ["1 shift 'x'", "step: no memory", "step: no memory", "0 undo shift 'x'"]
        wrong = (twice, b"0\n"), (twice[:-1], b"3\n"), (twice[:2] + twice[3:], b"3\n")
        other = [*twice[:3], "0 undo reduce 1"]
        self.each_caught(look, (twice, b"3\n"), *wrong, (other, b"3\n"), (twice[1:], b"3\n"))

    def test_check(self):
        """What `ydebug check` leaves out, it says; it invents nothing."""
        usual = b"a: accepted after 3 steps\nb: rejected at token 2: unexpected X\n  after X\n"
        it = scenario(["ydebug", "check", "g", "a", "b"], {}, stdout=usual, status=b"1\n")

        def look(made):
            """Whether an end is wrong."""
            text, message, status = made
            back = {"stdout": text, "message": message, "status": status}
            return refuse.way_of({**USUAL, **back}, it, {}) is None

        said = usual.replace(b"accepted after 3 steps", b"no memory")
        wrong = (said, b"", b"1\n"), (said.replace(b"token 2", b"token 3"), b"", b"3\n")
        wrong += (said[: said.index(b"b:")], b"", b"3\n"), (usual, b"", b"3\n")
        self.each_caught(look, (said, b"", b"3\n"), *wrong)
        begun = usual[: usual.index(b"b:")]
        wrong = (begun, b"ydebug: no memory\n", b"1\n"), (
            b"c: accepted\n", b"ydebug: no memory\n", b"3\n"
        )
        self.each_caught(look, (begun, b"ydebug: no memory\n", b"3\n"), *wrong)


class Allocations(Planted):
    """Lines that ask for memory."""

    def test_each_kind(self):
        """Only steps and edits may ask."""
        quiet = [Line(b"show\n", 0, b"0 running\n"), Line(b"back 1\n", 0, b"0 undo shift A\n")]
        quiet += [Line(b"to 0\n", 0, b"0 undo shift A\n"), Line(b"frob\n", 0, b"unknown command\n")]
        quiet += [
            Line(b"tree\n", 0, b""), Line(b"unwind\n", 0, b""), Line(b"step\n", 7, b"1 shift A\n")
        ]
        quiet += [Line(b"to 1\n", 7, b"1 shift A\n"), Line(b"insert A\n", 2, b"2 insert A\n")]
        wrong = [[Line(it.text, 1, it.reply)] for it in quiet if not it.asked]
        self.each_caught(lambda lines: allocations.judged(lines)[0], quiet, *wrong)
        kinds = allocations.judged(quiet)[1]
        self.assertFalse(allocations.missing_kinds(kinds))
        for kind in kinds:
            self.assertTrue(allocations.missing_kinds(Counter({**kinds, kind: 0}) + Counter()))

    def test_lines(self):
        """What is counted is that of its line, also where a line takes several reads."""
        rows = [[1, 5, 2], [2, 3, 0], [4, 5, 3]]
        made = list(allocations.lines_of(b"step\nrun 123\n", b"ab123", rows))
        self.assertEqual([it.asked for it in made], [1, 6])
        self.assertEqual([it.reply for it in made], [b"ab", b"123"])


# What asks for memory five times, once for each letter of a line, and says what it got.
ASKS = r"""
#include <stdlib.h>
#include <unistd.h>

int main(void) {
  char line[9];
  for (int turn = 0; turn < 5; turn++) {
    ssize_t length = read(0, line, sizeof line);
    for (int at = 0; at < 5 && !length; at++, turn = 5)
      if (write(1, malloc(100) ? "1" : "0", 1) != 1) return 1;
    for (int at = 0; at + 1 < length; at++)
      if (write(1, malloc(100) ? "1" : "0", 1) != 1) return 1;
  }
  return 0;
}
"""


class Libraries(Planted):
    """What counts and refuses allocations, before a program that asks for some."""

    def setUp(self):
        """Builds the program and the libraries."""
        super().setUp()
        source, self.path = self.room / "asks.c", str(self.room / "asks")
        source.write_text(ASKS)
        words = [compiler(), "-O0", "-fno-builtin", "-w", "-o", self.path, str(source)]
        self.assertEqual(ran(words).returncode, 0)
        sources = libraries.REFUSED, libraries.LINES
        self.refused, self.lines = (library_in(self.room, it) for it in sources)

    def test_refused(self):
        """The calls of some numbers are refused, and all are counted."""
        run = partial(ran, [self.path])
        for first, last, wanted in (
            (0, 0, "11111"), (2, 2, "10111"), (4, 99, "11100"), (1, 3, "00011")
        ):
            made, calls = refusing(first, last, self.refused, run)
            self.assertEqual((made.stdout, calls), (wanted, 5))

    def test_lines(self):
        """Each line has its own count, and from one on all are refused."""
        it = scenario(["asks"], {}, b"ab\nabc\n", stdout=b"11111")
        programs = {"asks": self.path}
        made, lines = allocations.counted(it, programs, self.lines)
        self.assertEqual([(line.text, line.asked) for line in lines], [(b"ab\n", 2), (b"abc\n", 3)])
        self.assertEqual(made["stdout"][:5], b"11111")
        made, _ = allocations.counted(it, programs, self.lines, at=2)
        self.assertEqual(made["stdout"][:5], b"11000")
        made, _ = allocations.counted(it, programs, self.lines, at=2, number=2)
        self.assertEqual(made["stdout"][:5], b"11101")

    def test_without(self):
        """A program that never asks was not looked at, which is a failure."""
        quiet = {"yacc": self.program("yacc", ""), "ydebug": self.program("ydebug", "")}
        pool = mock.Mock(map=lambda once, numbers, chunksize: [once(it) for it in numbers])
        with mock.patch.object(refuse, "refused_at", return_value=(USUAL, 0)), self.silent():
            it = scenario(["yacc"], {})
            ways = refuse.refused_in_turn("it", it, False, False, quiet, self.refused, pool)
        self.assertEqual(ways["wrong"], 1)

    def silent(self):
        """Keeps what is said from being seen."""
        return contextlib.redirect_stdout(io.StringIO())


STEP = "      1  shift    'x'\n"
MARKED = "  quit        ends the session, as the end of input does\n"


class Debugger(Planted):
    """Answers of the debugger without memory."""

    def fault(self, answer, place, marks=MARKED):
        """What is wrong with an answer to `step` and the place after it."""
        known = {
            ("step",): (STEP, "1  x\n"),
            ("to 0", "where"): ("", "0  x\n"),
            ("to 1",): (STEP, "1  x\n"),
        }
        with mock.patch.object(
            debugger, "usual", lambda _, __, lines: known.get((*lines,), ("", "?"))
        ):
            return debugger.fault_of(f"{answer}{MARKED}{place}{marks}", "ydebug", "here", ["step"])

    def test_each_answer(self):
        """Another answer, a place that moved without a step, a line that isn't answered."""
        right = STEP, "1  x\n"
        wrong = ("", "1  x\n"), (STEP, "0  x\n"), ("no memory\n", "7  x\n"), (STEP, "no memory\n")
        self.each_caught(lambda it: self.fault(*it), right, *wrong, (STEP, "1  x\n", ""))
        self.assertIsNone(self.fault("no memory\n", "0  x\n"))

    def test_commands(self):
        """A command ends as usual, or says no memory and writes nothing else."""
        usual = 0, "one\ntwo\n", "", {"out": b"text"}

        def look(made):
            """Whether an end is wrong."""
            return debugger.way_of_command(made, usual, {"out": b"old"})[1]

        refused = 3, "one\n", "ydebug: no memory\n", {}
        wrong = (3, "one\n", "", {}), (0, "one\n", "ydebug: no memory\n", {})
        wrong += (3, "other\n", "ydebug: no memory\n", {}), (*refused[:3], {"out": b"tex"})
        wrong += (3, "one\n", "told\nydebug: no memory\n", {}), (*refused[:3], {"more": b""})
        self.each_caught(look, refused, *wrong)
        self.assertIsNone(look((*refused[:3], {"out": b"old"})))
        self.each_caught(look, usual, (1, *usual[1:]), (0, "one\n", "", usual[3]))


DEBUGGER = r"""
for line in sys.stdin.read().splitlines():
    if line.startswith("#"):
        print(f"{line} is no command; try help")
    elif line.strip():
        print("an answer")
"""


class Babble(Planted):
    """A debugger that leaves a line unanswered, says too much, or ends otherwise."""

    def test_each_fault(self):
        """No answer, no mark, a message, a status, a signal."""
        pairs = [('print("an answer")', "pass"), ('print(f"{line}', 'print(f"")  #')]
        pairs += [
            ('print("an answer")', 'sys.exit(1)'), ('print("an answer")', 'sys.stderr.write("x")')
        ]
        pairs += [('print("an answer")', "os.kill(os.getpid(), 11)"), ("#", "##")]
        numbers = iter(range(99))

        def look(text):
            """What is at fault with a program."""
            path = self.program(f"ydebug{next(numbers)}", text)
            return babble.fault_of(path, self.room, ["step", "", "run 3"])

        self.each_caught(look, DEBUGGER, *changed(DEBUGGER, *pairs))
        self.assertTrue(os.listdir(self.room))
