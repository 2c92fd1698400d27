"""Parsers and drivers that make other steps, and tables that are wrong."""
import random
from pathlib import Path
from unittest import mock

from checks.parsers import classes, drivers, messages, parsers, policies, spoil
from checks.parsers.pairs import Case, digest_in, said_in
from checks.shared.places import EXAMPLES
from checks.shared.table_file import table_of
from checks.tests.fakes import Planted, changed, ended, grammar_in

TABLE = (EXAMPLES / "one-rule/tables/left/y.tab").read_bytes()
STEPS = "1 shift 'x'\n2 reduce 1\n3 accept\n"
MADE = "s 2\nr 1\na 0\n"
CASE = Case(TABLE, ["'x'"], STEPS, None)


class Parsers(Planted):
    """Parsers of `ycc`."""

    def fault(self, text, status=0, message=""):
        """What is wrong with a parser that writes this."""
        lines = f"sys.stdin.read(); sys.stdout.write({text!r}); sys.stderr.write({message!r})\n"
        program = self.program("parser", f"{lines}sys.exit({status})\n")
        with mock.patch.object(parsers, "built", return_value=program):
            return parsers.wrong((parsers.compare, b"%%", [CASE], "ycc"))

    def test_each_step(self):
        """Another step, a step too many, too few, another status, a message."""
        pairs = [
            ("r 1", "r 0"), ("s 2", "s 1"), ("a 0\n", ""), ("r 1\n", "r 1\nr 1\n"), ("a", "f")
        ]
        self.each_caught(self.fault, MADE, *changed(MADE, *pairs), "")
        self.assertTrue(self.fault(MADE, status=1))
        self.assertTrue(self.fault(MADE, message="runtime error: index 9 out of bounds"))
        self.assertFalse(self.fault(MADE))

    def test_given(self):
        """The parser gets the kinds of the tokens."""
        known = parsers.Names(table_of(TABLE))
        self.assertEqual(known.kinds["'x'"], 2)
        self.assertEqual(parsers.told_steps(b"p 1\nx 0\nd 2\n", known),
                         "1 pop 'x'\n2 shift error\n3 discard 'x'\n")

    def test_answers(self):
        """The calculator, built in any way, with a sum that is wrong."""
        right = (parsers.CALCULATOR / "answers").read_bytes()
        for answers, wrong in ((right, False), (right.replace(b"7", b"8", 1), True), (b"", True)):
            with mock.patch.multiple(parsers, calculator=mock.Mock(), sums_of=lambda *_: answers):
                job = parsers.compare_calculator, parsers.CALCULATOR, "ycc", [], "cc", "-std=c90"
                self.assertEqual(bool(parsers.wrong(job)), wrong)

    def test_messages(self):
        """A parser with messages that says another one, the one of `yyerror`, or none."""
        told = messages.Told(b"%%", b"", b"", [(TABLE, ["'x'"])] * 2, ["no 'x'", "unexpected $end"])
        for said, order, wrong in (
            (["no 'x'", "syntax error"], [], False),
            (["no 'x'", "unexpected $end"], [], True),
            (["no 'y'", "syntax error"], [], True),
            (["", "syntax error"], [], True),
        ):
            lines = mock.Mock(side_effect=said)
            with mock.patch.multiple(
                parsers, told_of=lambda *_, **__: told, speaking=mock.Mock(), said_of=lines
            ):
                job = parsers.compare_said, b"%%", {"ycc": "ycc"}, order
                self.assertEqual(bool(parsers.wrong(job)), wrong, said)

    def test_said(self):
        """What a parser says of the first error is what comes after its steps."""
        program = self.program("parser", "sys.stdin.read(); print('s 2\\ne 0\\nm a\\nb', end='')\n")
        self.assertEqual(parsers.said_of(program, TABLE, ["'x'"]), "a\\nb")

    def test_compilers(self):
        """A compiler that complains fails the build."""
        for status, message, wrong in ((0, b"", False), (1, b"", True), (0, b"warning: it", True)):
            with mock.patch.object(
                parsers.running, "ran", return_value=ended(b"", message, status)
            ):
                job = parsers.ran, ["cc"], "the compiler"
                self.assertEqual(bool(parsers.wrong(job)), wrong)


class Classes(Planted):
    """Parsers of `ycc` in C++, and examples of bison."""

    def fault(self, text, status=0):
        """What is wrong with a parser in C++ that writes this, beside one in C."""
        right = f"sys.stdout.write({MADE!r})\n"
        texts = right, f"sys.stdout.write({text!r}); sys.exit({status})\n"
        first, second = (self.program(f"parser{at}", it) for at, it in enumerate(texts))
        with mock.patch.multiple(classes, in_c=lambda *_: first, in_cxx=lambda *_: second):
            return classes.wrong((classes.compare, b"%%", [["'x'"]], "ycc"))

    def test_each_step(self):
        """Another step, a step too many or too few, another status."""
        self.each_caught(self.fault, MADE, *changed(MADE, ("s 2", "s 1"), ("a 0\n", "")), "")
        self.assertTrue(self.fault(MADE, status=1))

    def test_examples(self):
        """An example that says something else, or ends otherwise, than as bison builds it."""
        right = 0, b"7\n", b""
        for made, wrong in ((right, False), ((1, *right[1:]), True), ((0, b"8\n", b""), True)):
            builder = mock.Mock(side_effect=[right, made])
            job = classes.compare_example, "ycc", builder, "calc"
            self.assertEqual(bool(classes.wrong(job)), wrong, made)

    def test_answers(self):
        """The calculator with a sum that is wrong."""
        right = (classes.CALCULATOR / "answers").read_bytes()
        for answers, wrong in ((right, False), (right.replace(b"7", b"8", 1), True), (b"", True)):
            with mock.patch.multiple(classes, ran=mock.Mock(), sums_of=lambda _, it=answers: it):
                job = classes.compare_calculator, "ycc", [], "c++", "-std=c++11"
                self.assertEqual(bool(classes.wrong(job)), wrong)


BISON = """l
Next token is token NUM ()
Shifting token NUM ()
Reducing stack by rule 2 (line 16):
Shifting token "end of file" ()
= 0
"""


class Policies(Planted):
    """Parsers of `ycc` beside those of a peer."""

    def fault(self, trace, made, way, report="State 0\n"):
        """What is wrong with a parser that writes this, where its peer writes a trace; and with its
        report."""
        texts = [f"sys.stdin.read(); sys.stderr.write({it!r})\n" for it in (trace, made)]
        both = iter([self.program(f"parser{at}", text) for at, text in enumerate(texts)])
        grammar = mock.Mock(text="%%", names=["$end", "error"], tokens=2)

        def build(folder, name, _words, _text):
            """A parser, with a report beside it."""
            text = "State 0\n" if name == "peer" else report
            Path(f"{folder}/{name}.output").write_text(text)
            return next(both)

        with mock.patch.object(policies, "built", side_effect=build):
            return policies.wrong((way, grammar, [[]], "ycc"))

    def test_steps_of_bison(self):
        """Another rule, a token read later, no acceptance."""
        most = policies.WAYS[0]._replace(steps=policies.BISON)
        right = "l\ns\nr 2\na\n= 0\n"
        self.assertEqual(self.fault(BISON, right, most), [])
        for old, new in [("r 2", "r 3"), ("l\ns", "s\nl"), ("a\n", ""), ("= 0", "= 1")]:
            self.assertTrue(self.fault(BISON, right.replace(old, new), most))

    def test_traces_of_bison(self):
        """Another rule, another line of it, a line too few or too many."""
        most = policies.WAYS[0]
        self.assertEqual(self.fault(BISON, BISON, most), [])
        for old, new in [("rule 2", "rule 3"), ("line 16", "line 17"), ("l\n", "l\nl\n")]:
            self.assertTrue(self.fault(BISON, BISON.replace(old, new), most))
        self.assertTrue(self.fault(BISON, BISON.replace("Shifting token NUM ()\n", ""), most))

    def test_reports_of_bison(self):
        """Another state, a line too many; a report beside byacc's parser isn't looked at."""
        for report in ("State 1\n", "State 0\n\n"):
            self.assertTrue(self.fault(BISON, BISON, policies.WAYS[0], report))
        self.assertEqual(self.fault("l\n= 1\n", "l\n= 1\n", policies.WAYS[-1], "State 1\n"), [])

    def test_steps_of_byacc(self):
        """The lowest state, which byacc's trace tells of, is not popped."""
        trace = "l\nyydebug[0]: error recovery discarding state 0\n= 1\n"
        sole = policies.WAYS[-1]
        self.assertEqual(self.fault(trace, "l\n= 1\n", sole), [])
        self.assertTrue(self.fault(trace, "l\np\n= 1\n", sole))

    def test_states_of_conflicts(self):
        """Steps after an error are left out only where a conflict leaves a state one reduction, and
        only under the policy that has such states."""
        texts = b"%token A\n%%\ns : A | t ;\nt : A ;\n", b"%token A\n%%\ns : A ;\n"
        both = [grammar_in(it) for it in texts]
        self.assertEqual([policies.leaves_one(it) for it in both], [True, False])
        consistent, most = policies.WAYS[3], policies.WAYS[0]
        steps = ["l", "s", "e wrong", "x", "= 1"]
        self.assertEqual(policies.compared(consistent, steps, True), ["s", "e wrong"])
        self.assertEqual(policies.compared(consistent, steps, False), ["s", "e wrong", "x", "= 1"])
        self.assertEqual(policies.compared(most, steps, False), steps)

    def test_steps_without_an_end(self):
        """Steps that don't come to an end are left out only where a conflict leaves a state one
        reduction, under the policy that has such states, and a nonterminal derives itself."""
        texts = [
            b"%token A\n%%\ns : s | A ;\n",
            b"%token A\n%%\ns : t ;\nt : u s u | A ;\nu : ;\n",
            b"%token A\n%%\ns : A | s A ;\n",
        ]
        cyclic = [policies.is_cyclic(grammar_in(it)) for it in texts]
        self.assertEqual(cyclic, [True, True, False])
        self.assertEqual([policies.is_endless(it) for it in (["s", "= 1"], ["s"])], [False, True])
        consistent = policies.WAYS[3]._replace(steps=policies.BISON)
        most = policies.WAYS[0]._replace(steps=policies.BISON)
        right, endless = "l\ns\nr 2\na\n= 0\n", "l\ns\nr 2\nr 2\n"
        for way, leaves_one, derives_itself in [
            (consistent, True, True),
            (consistent, True, False),
            (consistent, False, True),
            (most, True, True),
        ]:
            is_left_out = way is consistent and leaves_one and derives_itself
            with (
                mock.patch.object(policies, "leaves_one", lambda _, it=leaves_one: it),
                mock.patch.object(policies, "is_cyclic", lambda _, it=derives_itself: it),
            ):
                self.assertEqual(self.fault(BISON, right, way), [])
                self.assertEqual(bool(self.fault(BISON, endless, way)), not is_left_out)


class Drivers(Planted):
    """Both drivers."""

    def setUp(self):
        """Leaves no case in a folder."""
        super().setUp()
        kept = mock.patch.object(drivers, "kept", lambda *_: "kept\n")
        kept.start()
        self.addCleanup(kept.stop)

    def test_steps(self):
        """The driver in Python makes the steps of `ystep`, but by a table with a wrong cell."""
        self.assertEqual(drivers.steps_of_python(TABLE, ["'x'"], 99), (STEPS, "accepted"))
        for table in changed(TABLE.decode(), ("d 1 1", "d 1 0"), ("a 0 2 s 1", "a 0 0 s 1")):
            made = drivers.steps_of_python(table.encode(), ["'x'"], 99)
            self.assertNotEqual(made[0], STEPS, table)

    def test_each_step(self):
        """Another step, a step too many, an answer too few, in one of two drivers."""
        right = {"plain": [(STEPS, "accepted")], "python": [(STEPS, "accepted")]}
        self.assertEqual(self.counted(drivers.compare_steps, [CASE], right), (2, 0))
        for steps in (
            *changed(STEPS, ("reduce 1", "reduce 0"), ("3 accept\n", "")), STEPS + "4 fail\n"
        ):
            wrong = {**right, "python": [(steps, "accepted")]}
            self.assertEqual(self.counted(drivers.compare_steps, [CASE], wrong), (1, 1))
        self.assertEqual(
            self.counted(drivers.compare_steps, [CASE], {**right, "plain": []}), (1, 1)
        )

    def test_said(self):
        """Another text for the first error, none, and one where there is no error."""
        text = "unexpected 'x', expected end of input"
        case = CASE._replace(said=text)
        for case, result, counts in (
            (case, f"failed: {text}", (1, 0)),
            (case, f"accepted: {text}", (1, 0)),
            (case, "failed: unexpected 'x', expected 'y'", (0, 1)),
            (case, "failed", (0, 1)),
            (CASE._replace(said=""), "accepted", (1, 0)),
            (CASE._replace(said=""), f"accepted: {text}", (0, 1)),
            (case, "cut", (0, 0)),
            (CASE, "failed", (0, 0)),
        ):
            answers = {"plain": [(STEPS, result)]}
            self.assertEqual(self.counted(drivers.compare_said, [case], answers), counts, result)

    def test_texts(self):
        """A driver with messages that says another one."""
        told = messages.Told(b"", b"", b"", [(TABLE, ["'x'"])], ["no 'x'"])
        for result, counts in (("failed: no 'x'", (1, 0)), ("failed: no x", (0, 1)), ("", (0, 1))):
            look = drivers.compare_texts
            self.assertEqual(
                self.counted(lambda tally: look("plain", [("", result)], told, tally)), counts
            )

    def test_pieces(self):
        """An entry of the stack stands by what the program says, or by its symbol."""
        said = drivers.Messages(dict.fromkeys(range(9), [b"after ", 1, b" no ", 0]))
        for show, text in ((None, "after s no 'x'"), (lambda symbol, *_: f"<{symbol}>", None)):
            told = []
            parser = drivers.Parser(
                drivers.read_table(TABLE),
                error=lambda token, place: told.append(said.of(parser, token, place, show)),
            )
            for _ in range(2):
                parser.push("'x'")
            symbols = parser.table.names.index("s"), parser.table.names.index("'x'")
            wanted = text or "after <{}> no <{}>".format(*symbols)
            self.assertEqual(told, [wanted])

    def test_spelled(self):
        """A token stands by what the messages call it, unless the program says what stands there;
        symbols are spelled in their order, before the states."""
        digest, called = drivers.digest_of(TABLE), b'spelled 0 3 end\nspelled 2 3 "x"\n'
        front, state = b"messages 1\ntable %d\n" % digest, b"state 9\nvalue 0\n"
        said = drivers.read_messages(front + called + state + b"end\n", digest)
        for show, text in ((None, 'unexpected "x", expected end'),
                           (lambda *_: "ex", "unexpected ex, expected end")):
            told = []
            parser = drivers.Parser(
                drivers.read_table(TABLE),
                error=lambda token, place: told.append(said.of(parser, token, place, show)),
            )
            for _ in range(2):
                parser.push("'x'")
            self.assertEqual(told, [text])
        for lines in (called[16:] + called[:16], state + called, called[:16] * 2):
            refused = drivers.read_messages(front + lines + b"end\n", digest)
            self.assertIsInstance(refused, drivers.Fault)

    def test_verdicts(self):
        """What a verdict says of an error."""
        told = b"tokens: error: rejected at token 2: unexpected 'x', expected end of input; can't tell of 'y'\n  after"
        self.assertEqual(said_in(told), "unexpected 'x', expected end of input")
        self.assertEqual(said_in(b"tokens: accepted after 3 steps\n"), "")
        self.assertIsNone(said_in(b"tokens: undecided after 1,000,000 steps\n"))

    def test_files_of_messages(self):
        """Blocks get other messages, and every fifth one is left out."""
        block = "'x'\n## state 2\n## expected $end\n\nunexpected $0, expected $expected\n\n"
        made = messages.with_texts(("## front\n\n" + block * 6).encode(), messages.TEXTS).decode()
        self.assertEqual(made.count("## state"), 5)
        self.assertNotIn("unexpected", made)
        self.assertEqual(messages.inputs_of((block * 2).encode()), [b"'x'\n"] * 2)

    def test_digests(self):
        """Another digest, and none."""
        right = b"%08x" % drivers.digest_of(TABLE)
        for digest, failed in ((right, 0), (b"00000000", 1), (digest_in(b"no rules"), 1)):
            case = CASE._replace(digest=digest)
            self.assertEqual(self.counted(drivers.compare_digests, [case])[1], failed)
        told = b"2 rules, of a table with the digest 0123abcd\n"
        self.assertEqual(digest_in(told), b"0123abcd")

    def test_wrong_tables(self):
        """Drivers that say other lines, or the same wrong one of a table that is cut."""
        cut = TABLE[:-4], ["'x'"], "cut"
        line = f"line {cut[0].count(10) + 1}: "
        right = ("", f"{line}no end"), ("", f"{line}no end"), True

        def look(it):
            """What is wrong with two answers."""
            return drivers.wrong_answer(cut, *it)

        early = "", "line 1: no table"
        self.each_caught(
            look, right, (early, early, True), (early, right[0], False), (right[0], early, True)
        )

    def test_in_c(self):
        """A driver in C that ends otherwise, or complains, ends the check."""
        text = f"sys.stdin.read(); sys.stdout.write({STEPS!r} + '== accepted\\n')\n"
        path = self.program("good", text)
        self.assertEqual(
            drivers.steps_of_c(path, [(TABLE, ["'x'"], "")], 99), [(STEPS, "accepted")]
        )
        for more in ("sys.exit(1)", "sys.stderr.write('runtime error')"):
            with self.assertRaises(SystemExit):
                drivers.steps_of_c(self.program("bad", f"{text}{more}\n"), [(TABLE, [], "")], 99)

    def test_answers(self):
        """A calculator that answers otherwise, or takes a table that isn't its own."""
        text = "sys.stdin.read(); print('7')\n"
        words, folders = [self.program("calculator", text)], ("names", "table")
        right = self.counted(
            lambda tally: drivers.compare_answers(tally, words, folders, b"", b"7\n")
        )
        self.assertEqual(right, (1, 0))
        for answers, refused in ((b"8\n", b""), (b"7\n", b"another table\n"), (b"", drivers.OTHER)):
            more = words, folders, b"", answers, refused
            made = self.counted(lambda tally, more=more: drivers.compare_answers(tally, *more))
            self.assertEqual(made, (0, 1))

    def test_spoil(self):
        """A spoiled table is another one."""
        rng = random.Random(1)
        for _ in range(50):
            self.assertNotEqual(spoil.spoiled(TABLE, rng)[0], TABLE)
