"""The gate, the quick checks, and what is counted."""
import contextlib
import io
import os
import re
import subprocess
import sys
import unittest
from unittest import mock

from checks import commands
from checks.gate import clock, gate, quick, rings, selftest, trace, words
from checks.shared import arguments
from checks.shared.places import FAULTS, TOP
from checks.shared.tally import Tally, sum_of
from checks.tests.fakes import Planted, changed

WELL = "print('2 passed, 0 failed')"


def python(text):
    """The words of a runner, and its name."""
    return "runner", [sys.executable, "-ISc", text]


class Sums(Planted):
    """What counts, and the sum of it."""

    def test_a_tally(self):
        """One failure, or nothing at all, is a failure of the whole."""
        for results, status in ((([], []), 0), (([], ["wrong\n"]), 1), ((), 1)):
            tally, out = Tally(), io.StringIO()
            with contextlib.redirect_stdout(out):
                for lines in results:
                    tally.take("a result", lines)
                self.assertEqual(tally.end(), status)
            failed = sum(map(bool, results))
            last = f"{len(results) - failed} passed, {failed} failed"
            self.assertEqual(out.getvalue().splitlines()[-1], last)

    def test_no_sum(self):
        """A line that is no sum has none."""
        self.assertEqual(sum_of("12 passed, 3 failed\n"), (12, 3))
        for line in ("", "12 passed", "all 12 passed, 3 failed", "12 passed, 3 failed, or so"):
            self.assertIsNone(sum_of(line))

    def test_holds(self):
        """What doesn't hold is a failure, with an empty text in its place, too."""
        tally = Tally()
        with contextlib.redirect_stdout(io.StringIO()):
            for holds, found in ((True, ""), (False, ""), (False, 0)):
                tally.hold("it", holds, found)
        self.assertEqual((tally.passed, tally.failed), (1, 2))


class Gate(Planted):
    """Runners that go wrong in each way."""

    def gate(self, quick, *runners):
        """The status and the last line of a gate."""
        status, said = self.said(lambda _: gate.run(quick, runners))
        return status, said.splitlines()[-1]

    def test_well(self):
        """Sums of runners are added."""
        both = python(WELL), python(WELL)
        self.assertEqual(self.gate([], *both), (0, "4 passed, 0 failed"))

    def test_each_failure(self):
        """A failure, another status, no sum and no line at all fail the gate."""
        bad = ["print('2 passed, 1 failed')", f"{WELL}; raise SystemExit(1)", "print('fine')", ""]
        for text in [*bad, f"{WELL}; print()", f"{WELL}; import os; os.kill(os.getpid(), 9)"]:
            with self.subTest(text=text):
                status, last = self.gate([], python(WELL), python(text))
                self.assertEqual(status, 1)
                self.assertTrue(last.endswith(" passed, 1 failed"), last)

    def test_told_again(self):
        """What failed is said again before the last line, and nothing of what passed is."""
        bad = "print('--- it FAILED'); print('- one'); print('2 passed, 1 failed')"
        for text, told in ((bad, "--- it FAILED\n- one\n"), ("print('fine')", "fine\n")):
            with self.subTest(text=text):
                runners = [python(f"print('well'); {WELL}"), python(text)]
                _, said = self.said(lambda _, it=runners: gate.run([], it))
                self.assertIn(f"failed: runner\n{told}", said)
                self.assertEqual((said.count("well"), said.count(told)), (1, 2))

    def test_quick(self):
        """A quick check that fails ends the gate before any runner."""
        quick = [python("raise SystemExit(1)")[1]]
        self.assertEqual(self.gate(quick, python(WELL)), (1, "0 passed, 1 failed"))

    def test_skipped(self):
        """What is skipped is said again at the end."""
        _, said = self.said(lambda _: gate.run([], [python(f"print('skipped: it'); {WELL}")]))
        self.assertEqual(said.count("skipped: it"), 2)

    def test_proofs(self):
        """The proofs of `rt ci` are told at the end, and those of other runners aren't."""
        seen = [clock.Seen("low", clock.PROOF, 3, 50, 40.0)]
        with mock.patch.object(gate.Clock, "stop", return_value=seen):
            for name, count in (("proofs", 1), ("mutants", 0)):
                runner = name, python(WELL)[1]
                _, said = self.said(lambda _, it=runner: gate.run([], [it]))
                self.assertEqual(said.count("low                   3     50     40"), count)

    def test_beside(self):
        """A runner begins once what it waits for is proved and there, and is told after it."""
        proofs = "print('rt: low proved'); print('rt: high is kept: it'); print('rt: last proved')"
        words = python(f"print('it ran'); {WELL}")[1]
        for crates, libraries, begins in (
            ({"low", "high"}, [TOP / "README.md"], True),
            ({"low", "other"}, [], False),
            ({"low"}, [TOP / "no-such-file"], False),
        ):
            beside = gate.Beside(words, crates, libraries)
            runners = ("proofs", python(f"{proofs}; {WELL}")[1]), ("mutants", words)
            status, said = self.said(lambda _, it=(runners, beside): gate.run([], *it))
            self.assertEqual((status, said.splitlines()[-1]), (0, "4 passed, 0 failed"))
            self.assertEqual(said.count("it ran"), 1)
            self.assertLess(said.index("rt: last"), said.index("it ran"))
            self.assertEqual(bool(beside.running), begins)

    def test_beside_fails(self):
        """One that fails so, or says nothing, fails the gate."""
        for text in ("print('0 passed, 1 failed')", "", f"{WELL}; raise SystemExit(1)"):
            words = python(text)[1]
            beside = gate.Beside(words, {"low"}, [])
            runners = ("proofs", python(f"print('rt: low proved'); {WELL}")[1]), ("it", words)
            self.assertEqual(self.said(lambda _, it=(runners, beside): gate.run([], *it))[0], 1)

    def test_needs(self):
        """A runner that can't be run here is skipped, and that is said."""
        with mock.patch.dict(gate.NEEDS, {"runner": "no-such-program"}):
            status, said = self.said(lambda _: gate.run([], [python("raise SystemExit(1)")]))
        self.assertEqual((status, said.count("skipped: there is no no-such-program")), (1, 1))

    def test_every_runner(self):
        """Each runner is a command of this program."""
        names = [it[0] for it in (*gate.QUICK, *gate.RUNNERS)]
        self.assertLessEqual({*names}, {*commands.modules()})
        self.assertEqual(len(names), len({*names}))


class Quick(Planted):
    """Parts that go wrong in each way, and what is left out."""

    TESTS = "print('test result: ok. 3 passed; 0 failed; 0 ignored'); print('run=ended')"

    def quick(self, *texts, left_out=()):
        """The status of a run over parts, and its lines."""
        parts = [quick.Part(f"part{at}", python(it)[1]) for at, it in enumerate(texts)]
        status, said = self.said(lambda _: quick.run([], parts, left_out))
        return status, said.splitlines()

    def test_each_end(self):
        """Sums and results of tests are added; a failure, a status and no sum fail."""
        status, lines = self.quick(WELL, self.TESTS)
        self.assertEqual((status, lines[-1]), (0, "5 passed, 0 failed"))
        self.assertTrue(lines[-2].startswith("This is not the gate, and proves nothing"), lines)
        bad = [f"{WELL}; raise SystemExit(1)", "", "print('fine')", "print('0 passed, 0 failed')"]
        for text in [*bad, self.TESTS.replace("0 failed", "2 failed"), "raise SystemExit(1)"]:
            with self.subTest(text=text):
                status, lines = self.quick(WELL, text)
                self.assertEqual(status, 1)
                self.assertFalse(lines[-1].endswith(" 0 failed"), lines)

    def test_skips(self):
        """What a part skips is told, and what is left out; nothing else where all is well."""
        status, lines = self.quick(f"print('much'); print('skipped: it'); {WELL}", left_out=["x"])
        self.assertEqual((status, lines[0], "much" in lines), (0, "skipped: it", False))
        self.assertTrue(any(it.startswith("skipped: x: bin/ has no") for it in lines), lines)

    def test_parts(self):
        """Proved programs are asked only where they are there; each part is a command."""
        for is_built, names in ((True, {*quick.PROVED}), (False, set())):
            found = {it.name for it in quick.parts(is_built)}
            self.assertEqual(found & {*quick.PROVED}, names)
            self.assertLessEqual({"scenarios", "selftest", "mutants", "ytables_tests"}, found)
        for words, _ in quick.PROVED.values():
            self.assertIn(words[0], commands.modules())


class Clock(Planted):
    """When proofs began and ended."""

    # One that looks like a check: a shell of that name, which waits.
    BEGINNER = """
import subprocess, threading
def check(*words):
    subprocess.run(["kit/rattle", "-c", "sleep 0.5; :", *words], executable="/bin/sh")
lanes = [threading.Thread(target=check, args=("--crate-name", it)) for it in ("low", "other")]
for it in lanes: it.start()
for it in lanes: it.join()
check("--crate-name", "high")
check("--crate-name", "high", "--test")
"""

    def test_seen(self):
        """Checks that threads of a process begin are seen, each with its crate and its kind."""
        running = subprocess.Popen([sys.executable, "-ISc", self.BEGINNER])
        looking = clock.Clock(running.pid, 0.03)
        running.wait()
        seen = looking.stop()
        # A shell that forks looks like two for a moment.
        proofs = {(it, clock.PROOF) for it in ("high", "low", "other")}
        self.assertEqual({(it.crate, it.kind) for it in seen}, {*proofs, ("high", clock.TESTS)})
        began = {it.crate: it.began for it in reversed(seen) if it.kind == clock.PROOF}
        self.assertLess(max(began["low"], began["other"]), began["high"])
        self.assertTrue(any(it.began < it.ended for it in seen), seen)
        self.assertEqual([*clock.below(running.pid)], [], "it has ended, and nothing is below it")

    def test_number_again(self):
        """A process that has the number of one that has ended is another."""
        looking = clock.Clock(os.getpid(), 60)
        for began, crate in ((1, "low"), (2, "high")):
            found = [(os.getpid(), ["kit/rattle", "--crate-name", crate])]
            with mock.patch.object(clock, "below", return_value=found), \
                    mock.patch.object(clock, "born", return_value=began):
                looking.look()
        looking.stopped.set()
        self.assertEqual([it.crate for it in looking.seen.values()], ["low", "high"])

    def test_kinds(self):
        """Words and folders say what a check is for, and another program is none."""
        words = ["kit/bin/rattle", "check", "--crate-name", "low"]
        self.assertEqual(clock.crate_in(words), "low")
        for other in ([], ["rattle"], ["rattle", "--crate-name"], ["rt", "--crate-name", "low"]):
            self.assertIsNone(clock.crate_in(other))
        self.assertEqual(clock.kind_of(words, "/a/crates/low"), clock.PROOF)
        self.assertEqual(clock.kind_of([*words, "--test"], "/a/crates/low"), clock.TESTS)
        self.assertEqual(clock.kind_of(words, "/a/rt-edit-3-x"), clock.MUTANT)
        self.assertEqual(clock.kind_of([*words, "--crate-checked", "it"], "/a"), clock.BUILD)

    def test_waits(self):
        """A proof waited for the library that ended last, and so back to the first."""
        times = {"low": (0, 50), "wide": (0, 80), "middle": (50, 70), "high": (85, 99)}
        seen = [clock.Seen(it, clock.PROOF, *times[it], 60.0) for it in times]
        libraries = {"middle": ["low"], "high": ["middle", "wide", "kept"]}
        proofs = {it.crate: it for it in seen}
        chain = [it.crate for it in clock.chain_of(proofs, libraries)]
        self.assertEqual(chain, ["high", "wide"])
        told = "".join(clock.table(seen, libraries))
        self.assertIn("high                 85     99     60  wide, 5 ago\n", told)
        self.assertIn("proofs: 4, 4.0 minutes of a processor\n", told)
        self.assertIn("the seconds of each: high 14, wide 80\n", told)
        self.assertEqual("".join(clock.table([], libraries)), "")


class Rings(Planted):
    """Modules of a crate that name each other."""

    GOOD = {"lib.rt": "mod a; mod b;", "a.rt": "use crate::b::Thing;", "b.rt": "use std::fmt;"}

    def look(self, files):
        """Whether there is a ring in a crate of these files."""
        src = self.room / str(id(files)) / "crate" / "src"
        for name, text in files.items():
            (src / name).parent.mkdir(parents=True, exist_ok=True)
            (src / name).write_text(text)
        return self.said(rings.main, str(src.parents[1]))[0]

    def test_each_ring(self):
        """By use, by a path, by super, of three, and of folders."""
        wrong = [{**self.GOOD, "b.rt": it} for it in ("use crate::a::It;", "f(crate::a::It)")]
        wrong += [{**self.GOOD, "b.rt": "use super::a::{It, Other};"}]
        wrong += [{**self.GOOD, "b.rt": "use crate::c::It;", "c.rt": "use crate::a::It;"}]
        folders = {"x/one.rt": "use crate::y::one::It;", "y/two.rt": "use crate::x::two::It;"}
        wrong += [{"lib.rt": "", **folders, "x/two.rt": "", "y/one.rt": ""}]
        self.each_caught(self.look, self.GOOD, *wrong)

    def test_tests_may(self):
        """What stands under #[cfg(test)] is passed over, and so is a comment."""
        for text in ("#[cfg(test)] mod tests { use crate::a::It; }", "// use crate::a::It;"):
            self.assertFalse(self.look({**self.GOOD, "b.rt": text}))


class FaultWords(Planted):
    """Words of the program and rows of the document."""

    def test_each_difference(self):
        """Another word, another order, a row less, no row."""
        text, program = FAULTS.read_text(), words.FILES[0].read_text()
        rows = [found[0] for found in words.ROW.finditer(text) if words.CODE.fullmatch(found[1])]
        pairs = [(rows[0] + "\n", ""), (rows[0], rows[0].replace("|", "|  no", 2))]
        pairs += [
            (f"{rows[0]}\n{rows[1]}", f"{rows[1]}\n{rows[0]}"), (rows[2], rows[2] + "\n" + rows[2])
        ]

        def look(document):
            """What differs from the program."""
            ours, theirs = words.of_program(program), words.of_document(document)
            return list(words.differences(ours, theirs))

        self.each_caught(look, text, *changed(text, *pairs), "")
        self.assertTrue(list(words.differences([], words.of_document(text))))


class Trace(Planted):
    """A trace of byacc and the replies of a session."""

    def test_each_difference(self):
        """A step less, another step, a step too many, in either text."""
        trace_of, replies = (
            (trace.RECOVERY / it).read_text() for it in ("trace", "session/stdout")
        )
        steps = trace.steps_of_replies(replies)
        shift = next(it for it in steps if it.startswith("shift"))
        pairs = [(f" {shift}\n", " reduce 99\n"), (f" {shift}\n", f" {shift}\n9 {shift}\n")]
        wrong = [*changed(replies, *pairs), ""]
        self.each_caught(lambda it: trace.differences(trace_of, it), replies, *wrong)
        rules = [("reducing by rule", "going by rule"), ("discarding state", "keeping state")]
        wrong = [*changed(trace_of, *rules), "", "nothing"]
        self.each_caught(lambda it: trace.differences(it, replies), trace_of, *wrong)


class Selftest(Planted):
    """Tests that fail are told."""

    def test_each_end(self):
        """A failure, an error and a test that is skipped are failures; so is no test."""
        cases = {
            "test_good": (lambda _: None, 0),
            "test_bad": (lambda it: it.fail("planted"), 1),
            "test_error": (lambda _: 1 / 0, 1),
            "test_skip": (lambda it: it.skipTest("planted"), 1),
        }
        for name, (text, status) in cases.items():
            suite = unittest.TestSuite([type("Case", (unittest.TestCase,), {name: text})(name)])
            with mock.patch.object(selftest, "suite_of", return_value=suite), self.quiet():
                self.assertEqual(self.said(selftest.main)[0], status, name)
        with mock.patch.object(selftest, "suite_of", return_value=unittest.TestSuite()):
            with self.quiet():
                self.assertEqual(self.said(selftest.main)[0], 1)

    def quiet(self):
        """Keeps what a run of tests says from being seen."""
        return contextlib.redirect_stderr(io.StringIO())


class Commands(Planted):
    """Commands and what they are given."""

    def test_each_is_reachable(self):
        """Each command has a target, or the page on the code names it."""
        makefile, page = (TOP / it for it in ("Makefile", "docs/ARCHITECTURE.md"))
        targets, text = makefile.read_text(), page.read_text()
        for name in commands.modules():
            named = f"$(checks) {name}" in targets or f"`{name}`" in text or f" {name} " in text
            self.assertTrue(named, f"{name} has no target and isn't in docs/ARCHITECTURE.md")

    def test_order(self):
        """A package names only those that stand above it in the page on the code."""
        page = (TOP / "docs/ARCHITECTURE.md").read_text()
        order = [
            name for name in re.findall(r"(?m)^\| `(\w+)` \|", page[page.index("## The checks") :])
        ]
        self.assertIn("shared", order)
        for file in (TOP / "checks").glob("*/*.py"):
            for name in re.findall(r"(?m)^from checks\.(\w+)", file.read_text()):
                home = file.parent.name
                if home != "tests":
                    self.assertLessEqual(order.index(name), order.index(home), f"{file}: {name}")

    def test_programs(self):
        """A program that isn't there, or isn't used, ends a command."""
        path = self.program("yacc", "")
        given = arguments.asked("usage", [f"yacc={path}", "more"], ("yacc",))
        self.assertEqual((given.programs, given.words), ({"yacc": path}, ["more"]))
        for words_given in ([f"yacc={path}no"], [f"yacc={path}", f"ystep={path}"]):
            with self.assertRaises(SystemExit) as end, contextlib.redirect_stderr(io.StringIO()):
                arguments.asked("usage", words_given, ("yacc",))
            self.assertTrue(end.exception.code)

    def test_unknown(self):
        """An unknown command ends with status 2."""
        with contextlib.redirect_stderr(io.StringIO()):
            self.assertEqual(commands.main(["no-such-command"]), 2)
