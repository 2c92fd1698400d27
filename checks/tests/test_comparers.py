"""The comparers: programs that say something else than the machines."""
import random
from collections import Counter
from functools import partial
from unittest import mock

from checks.comparers import (
    ambiguities, causes, choices, conflicts, coverage, documents, errors, faults, hints, programs,
    texts, verdicts, written
)
from checks.shared.grammars import grammar_of
from checks.shared.machine import replies_of
from checks.shared.places import SCENARIOS
from checks.shared.precedences import whole
from checks.shared.spelling import names_of
from checks.shared.tables import Tables
from checks.tests.fakes import Planted, changed, ended, grammar_in


def same(text):
    """A text as it is."""
    return text


class Answers:
    """Stands for `yacc` and `ystep`: they answer as the machines do, with a change."""

    def __init__(self, rng, table=same, message=same, replies=same, status=0):
        self.rng, self.grammar = rng, None
        self.table, self.message, self.replies, self.status = table, message, replies, status

    def grammar_of(self, _):
        """A grammar that has tables and a conflict."""
        while not (it := grammar_of(self.rng)).is_productive() or not Tables(it).conflicts_line():
            pass
        self.grammar = it
        return it

    def ran(self, words, folder, given=""):
        """A run of one of both."""
        tables = Tables(self.grammar)
        if words[0] == "yacc":
            (folder / "y.tab").write_text(self.table(tables.text()))
            return ended("", self.message(tables.conflicts_line()), self.status)
        names = names_of((folder / "tokens").read_bytes())
        tokens = [self.grammar.names.index(it) for it in names]
        replies = replies_of(tables, tokens, given.splitlines())
        return ended(self.replies(replies), "", self.status)


def swapped(line):
    """A line on conflicts whose counts are those of each other."""
    words = line.split(" ")
    return " ".join([words[0], words[3], words[2], words[1], *words[4:]])


class Programs(Planted):
    """Tables and replies that are wrong in one place."""

    def is_right(self, **change):
        """Whether an answer passes as right."""
        rng, counts = random.Random(3), Counter()
        answers = Answers(rng, **change)
        with mock.patch.multiple(programs, ran=answers.ran, grammar_of=answers.grammar_of):
            return programs.is_right(self.room, "yacc", "ystep", rng, counts)

    def test_each_change(self):
        """A cell, a line, a count, a status, a step too many or too few, another reply."""
        self.assertTrue(self.is_right())
        changes = [{"table": lambda it: it.replace(" s ", " r ", 1)}, {"status": 1}]
        changes += [{"table": lambda it: it.replace("\nend", "", 1)}, {"message": swapped}]
        changes += [
            {"message": lambda _: ""}, {"table": lambda it: it.replace("states ", "states 1")}
        ]
        changes += [{"replies": lambda it: it + "99 shift X\n"}]
        changes += [{"replies": lambda it: it.split("\n", 1)[1]}]
        changes += [{"replies": lambda it: it.replace("running", "popping")}]
        for change in changes:
            with self.subTest(change=str(change)):
                self.assertFalse(self.is_right(**change))

    def test_refused(self):
        """A file without tables has to be refused with its fault."""
        grammar = grammar_in(b"%% s : s ;\n")
        for said, fits in (("yacc: G11 at line 1", True), ("yacc: G10 at line 1", False)):
            run = mock.Mock(return_value=ended("", f"{said}\n", 1))
            with mock.patch.object(programs, "ran", run):
                self.assertEqual(programs.table_is_right(self.room, "yacc", grammar), fits)

    def test_ends(self):
        """The first difference ends a run, which fails."""
        given = mock.Mock(seed=1, seconds=0)
        for fits, failed in ((True, 0), (False, 1)):
            with mock.patch.object(programs, "is_right", return_value=fits):
                tally, _ = programs.compared(["yacc", "ystep"], self.room, given)
            self.assertEqual(tally.failed, failed)


class Conflicts(Planted):
    """Reports on conflicts that say something else."""

    def look(self, name):
        """What a scenario's report is, and what is wrong with another."""
        folder = SCENARIOS / "ydebug/conflicts" / name
        grammar = grammar_in((folder / "grammar.y").read_bytes())
        report = (folder / "stdout").read_text()
        return report, lambda text: conflicts.differences(grammar, text)

    def test_each_change(self):
        """A longer list, another token, a wrong trial, counts, a rule, a warning too few."""
        report, look = self.look("a-list-for-each-rule")
        pairs = [("tokens  C A . B", "tokens  C A A . B"), ("tokens  C A . B", "tokens  C A . E")]
        pairs += [("A parse comes to", "A parse over them misses"), ("shift, to", "reduce, to")]
        pairs += [("2 shift/reduce, 1 reduce", "1 shift/reduce, 2 reduce"), ("2 table", "3 table")]
        pairs += [("2 groups", "1 groups"), ("state 4 on E", "state 4 on B")]
        pairs += [("rule 10 is useless", "rule 9 is useless")]
        pairs += [("state 1  rule 3", "state 2  rule 3"), ("state 2  rule 6", "state 2  rule 7")]
        pairs += [("    state 2  rule 7 (line 11)  q: . y B\n", ""), ("after rule 10", "after rule 9")]
        pairs += [("between rule 9", "between rule 11"), ("1 of 3 conflicts st", "2 of 3 conflicts st")]
        gone = report[: report.index("\ngrammar.y:15:1: warning")], report.replace("conflict 2", "conflict two")
        lists = report.replace("  for rule 10 (line 15):\n  tokens  D A . B\n", "")
        self.each_caught(look, report, *changed(report, *pairs), *gone, lists, "")

    def test_offered(self):
        """A change that settles fewer conflicts than is told, or that names another token."""
        report, look = self.look("sums-and-products")
        pairs = ("4 of 4 conflicts go", "3 of 4 conflicts go"), ("'+' and '*' get", "'+' gets")
        self.each_caught(look, report, *changed(report, *pairs))

    def test_covered(self):
        """A rule that isn't covered by those that are named, and a wrong count without it."""
        grammar = grammar_in(b"%token N\n%%\ne : p | N ;\np : N ;\n")
        for line, wrong in (
            (("1", "1", "2", "rule 1 (line 3), rule 3 (line 4)"), False),
            (("0", "1", "2", "rule 1 (line 3), rule 3 (line 4)"), True),
            (("1", "2", "2", "rule 1 (line 3), rule 3 (line 4)"), True),
            (("1", "1", "2", "rule 3 (line 4)"), True),
            (("1", "1", "2", "rule 1 (line 3), rule 2 (line 3)"), True),
            (("1", "1", "3", "rule 2 (line 3)"), True),
        ):
            self.assertEqual(bool(causes.wrong_covered(grammar, [line], 1)), wrong, line)
        head = "  18 of 88 conflicts go without rule 76 (line 57): what it derives comes of rule 75 too\n"
        self.assertEqual(causes.COVERED.findall(head), [("18", "88", "76", "rule 75")])

    def test_copies(self):
        """A copy that leaves more conflicts than is told, or as many as there are."""
        grammar = grammar_in(b"%%\ns : 'a' x 'd' | 'b' y 'd' | 'a' y 'e' | 'b' x 'e' ;\nx : 'c' ;\ny : 'c' ;\n")
        for line, wrong in (
            (("x", "1", "0", "2"), False),
            (("x", "1", "1", "2"), True),
            (("x", "1", "0", "3"), True),
            (("x", "5", "0", "2"), True),
        ):
            self.assertEqual(bool(causes.wrong_copies(grammar, [line], 2)), wrong, line)
        told = "  With a copy of x, which has the same rules, in rule 1 (line 2) 0 of 2 conflicts are left.\n"
        self.assertEqual(causes.COPY.findall(told), [("x", "1", "0", "2")])

    def test_beside(self):
        """Conflicts that a hint is told to settle, or a kernel item, too many or too few."""
        report, look = self.look("sums-and-products")
        also = "settles conflicts 1, 3 to 4"
        pairs = [(also, also.replace("1, ", "")), (also, also.replace("1, 3", "1"))]
        self.each_caught(look, report, *changed(report, *pairs))
        report, look = self.look("kernel-items")
        item = "    rule 1 (line 3)  stat: EXPLAIN . storage constants NAME\n"
        begins = "  STATIC can begin what comes next in:\n"
        other = item.replace("rule 1 (line 3)", "rule 2 (line 4)")
        pairs = [(item, other), (begins + item, ""), (item, item + other)]
        self.each_caught(look, report, *changed(report, *pairs))

    def test_none(self):
        """A conflict that isn't told, and one that isn't there."""
        report, look = self.look("dangling-else")
        longer = report.replace("IF ID IF ID ID ';' .", "IF ID IF ID IF ID ID ';' .")
        none = "grammar.y: no conflicts\n"
        self.each_caught(look, report, longer, none, report.replace("in 1 table entry of 1 group", ""))


class Documents(Planted):
    """Documents and lines that say something else than the report."""

    def setUp(self):
        """Reads a report, and the same as a document and as lines."""
        super().setUp()
        several = SCENARIOS / "ydebug/conflicts/a-list-for-each-rule"
        self.source = (several / "grammar.y").read_bytes()
        self.report = (several / "stdout").read_text()
        self.document = (SCENARIOS / "ydebug/machine/json-several/stdout").read_text()
        self.lines = (SCENARIOS / "ydebug/machine/gcc-several-kinds/stdout").read_text()

    def look(self, document):
        """What is wrong with a document whose lines are as they should be."""
        return documents.differences(self.source, self.report, document, self.lines)

    def test_each_change(self):
        """Counts, states, tokens, rules, lists, columns and warnings that are others."""
        pairs = [('"shift_reduce":2', '"shift_reduce":1'), ('"cells":2', '"cells":3')]
        pairs += [('"state":4,', '"state":5,'), ('"states":1', '"states":2'), ('"last":4', '"last":5')]
        pairs += [('"token":"E"', '"token":"B"'), ('"taken":"shift"', '"taken":"reduce"')]
        pairs += [('"rule":10,', '"rule":11,'), ('"text":"x: A"', '"text":"x: B"')]
        pairs += [('"line":14,"column":1', '"line":15,"column":1'), ('"column":1,', '"column":2,')]
        pairs += [('"tokens":["C","A"]', '"tokens":["C"]'), ('"rules":[9]', '"rules":[10]')]
        pairs += [('"both":false', '"both":true'), ('"version":1', '"version":2')]
        pairs += [("is useless in", "is idle in"), ('"form":"conflicts"', '"form":"check"')]
        pairs += [('"left":2,"all":3', '"left":1,"all":3'), ('"split":{"symbol":"x"', '"split":{"symbol":"y"')]
        self.each_caught(self.look, self.document, *changed(self.document, *pairs))

    def test_lines(self):
        """A line too few, another place, another severity."""
        look = lambda it: documents.differences(self.source, self.report, self.document, it)
        pairs = [("grammar.y:14:1:", "grammar.y:14:2:"), ("warning: ", "note: "), ("rule 9", "rule 8")]
        less = self.lines.split("\n", 1)[1]
        self.each_caught(look, self.lines, *changed(self.lines, *pairs), less)

    def test_places(self):
        """A place where something else stands, one that lacks, and that of another conflict."""
        source = b"%token A '+'\n%%\ns : A { x } A\n  | s '+'\n  ;\n"
        lost = "is useless in the parser due to conflicts:  "
        for message, line, column in (
            ("token A is declared but never used", 1, 8),
            ("useless token '\\053': it can't be reached from the start symbol", 1, 10),
            (f"rule 1 {lost}$$1: (empty)", 3, 7),
            ("shift/reduce conflict on ',' in state 1: the shift is taken, not rule 3 (s: s)", 4, 3),
            (f"rule 3 {lost}s: s '+'", 4, 3),
            ("useless %prec in rule 2", 3, 1),
        ):
            told = {"message": message, "line": line}
            look = lambda it: documents.wrong_spots(source, [told | {"column": it}])
            self.each_caught(look, column, column + 1, None)
        rule = {"rule": 3, "line": 4, "column": 3, "text": "s: s '+'"}
        look = lambda it: documents.wrong_columns(source, [{"rules": [rule | it]}])
        self.each_caught(look, {}, {"column": 2}, {"column": None}, {"line": 3})
        kind = {"taken": "shift", "rules": [rule]}
        cause = {"kinds": [0], "category": "conflicts-sr", "loses": [3]}
        told = rule | {"category": "conflicts-sr"}
        look = lambda it: documents.wrong_head(cause, [kind], told | it)
        self.each_caught(look, {}, {"column": 4}, {"line": 3})
        look = lambda it: documents.wrong_front(f"grammar.y:{it}: warning: conflict 1: ", kind)
        self.each_caught(look, "4:3", "4:4", "3:3", "4")

    def test_blocks(self):
        """Further tokens of a block: each stands once, and differs from the first by its token."""
        part = ["grammar.y:3:1: warning: conflict 1: state 4 on A: shift, to state 3"]
        part += ["  The same on 3 other tokens, conflicts 2 to 3, 5:", "    '-' ' '", "    B", "  so"]
        others = [(2, "'-'"), (3, "' '"), (5, "B")]
        self.assertEqual(list(documents.others_in(part)), others)
        last = ["grammar.y:5:1: warning: conflict 4: "]
        look = lambda count: documents.wrong_places([part, last], [{}] * count, "")
        self.each_caught(look, 5, 4, 6)
        head = {"state": 4, "taken": "shift", "rules": [], "more": 0, "token": "A"}
        changes = [{}, {"token": "B", "state": 5}, {"token": "B", "rules": [1]}]
        wrong = lambda it: documents.wrong_other(head, head | it, "B")
        self.each_caught(wrong, {"token": "B"}, *changes)

    def test_verdicts(self):
        """Another verdict, number or token than the plain line has."""
        sheet = {"verdict": "rejected", "steps": None, "number": 2, "token": "B", "expected": ["A"]}
        plain, tokens = "inputs/0: rejected at token 2", ["A", "B"]
        wrong = lambda it: documents.wrong_verdict(plain, it) or documents.wrong_token(tokens, it)
        others = [{"verdict": "accepted", "steps": 2}, {"number": 1}, {"token": "A"}]
        others += [{"expected": ["A", "B"]}, {"verdict": "undecided"}]
        self.each_caught(wrong, sheet, *(sheet | it for it in others))


class Hints(Planted):
    """Advice that isn't so."""

    def setUp(self):
        """Draws a grammar with a conflict between one rule and a token, neither with a level."""
        super().setUp()
        self.draw = whole(random.Random(1), hints.KINDS, may_end=False)
        self.draw.tokens, self.draw.lows, self.draw.lefts = ["A", "B"], ["LOW"], ["s"]
        self.draw.levels, self.draw.precedences = [], {}
        self.draw.rules = [("s", ["s", "A", "s"], None, False), ("s", ["B"], None, False)]

    def judged(self, hint):
        """Whether each hint of a report holds."""
        report = "grammar.y:3:1: warning: conflict 1: state 4 on A: shift, to state 3\n"
        report += "  reduce  rule 1 (line 3)\n"
        report += f"  {hint}\n"
        return [holds for _, _, holds in hints.judged(self.draw, report)]

    def test_each_hint(self):
        """The right words hold, and the same ones turned round don't."""
        name = "name A in a line"
        for right, wrong in (
            (f"To choose, {name}: %left reduces, %right shifts.", None),
            (f"To reduce by rule 1, {name} of %left.", f"To reduce by rule 2, {name} of %left."),
            ("To shift A, name it in a line of %right.", None),
        ):
            self.assertEqual(self.judged(right), [True], right)
            if wrong:
                self.assertEqual(self.judged(wrong), [False], wrong)

    def test_low(self):
        """A rule with a token of its own, above and below the line of the other."""
        hint = "To choose, write %right LOW above {} A, and %prec LOW at the end of rule {}: it."
        self.assertEqual(self.judged(hint.format("%right", 1)), [True])
        self.assertEqual(self.judged(hint.format("%right", 2)), [False])

    def test_warnings(self):
        """A precedence that settles nothing, and one that does."""
        warning = "grammar.y:2:7: warning: useless precedence for A"
        self.draw.levels, self.draw.precedences = [("left", ["B"])], {"B": (1, "left")}
        idle = warning.replace("for A", "for B")
        self.assertEqual([it[2] for it in hints.judged(self.draw, idle)], [True])
        self.draw.levels, self.draw.precedences = [("left", ["A"])], {"A": (1, "left")}
        self.assertEqual([it[2] for it in hints.judged(self.draw, warning)], [False])
        missed = warning.replace("y:2:", "y:1:")
        self.assertEqual([it[2] for it in hints.judged(self.draw, missed)], [False])


class Choices(Planted):
    """What a choice is said to lose, and doesn't."""

    def wrong(self, tried):
        """Whether each choice in a line is told wrongly."""
        rules = [("s", "s A s"), ("s", "B")]
        draw = choices.Plain(["A", "B"], [], rules)
        report = "  To choose, name A in a line: %left reduces, %right shifts.\n"
        report += f"  Tried on all sentences of up to {tried}.\n"
        return [bool(it) for _, it in choices.judged(draw, report)]

    def test_each_choice(self):
        """How many sentences there are, how many are lost, and one of them."""
        right = "5 tokens (3): the shift by %right loses none"
        self.assertEqual(self.wrong(right), [False])
        self.assertEqual(self.wrong(right.replace("(3)", "(4)")), [True])
        self.assertEqual(self.wrong(right.replace("right", "nonassoc")), [True])
        lost = "5 tokens (3): the reduction by %nonassoc loses 1, such as {}"
        self.assertEqual(self.wrong(lost.format("B A B A B")), [False])
        self.assertEqual(self.wrong(lost.format("B A B")), [True])
        self.assertEqual(self.wrong(lost.format("B B")), [True])
        self.assertEqual(self.wrong(lost.format("B A B A B").replace("loses 1", "loses 2")), [True])


    def test_order(self):
        """Another order of two rules, and what it loses."""
        rules = [("s", "A a B"), ("s", "A b"), ("a", "C"), ("b", "C"), ("b", "C B")]
        draw = choices.Plain(["A", "B", "C"], [], rules)
        report = ": warning: conflict 1:\n  reduce  rule 3 (line 4)\n  reduce  rule 4 (line 5)\n"
        report += "  To choose, change the grammar.\n  Tried on all sentences of up to 3 tokens (2): {}.\n"
        for said, wrong in ("loses none", False), ("loses 1, such as A C", True):
            told = list(choices.judged(draw, report.format(f"rule 4 in front {said}")))
            self.assertEqual([bool(it) for _, it in told], [wrong])

    def test_changes(self):
        """A rule that goes with another language, and with the same; how many conflicts stay."""
        draw = choices.Plain(["X", "Y"], [], [("a", "a"), ("a", "X"), ("a", "Y")])
        line = "  Without rule {} (line 3) {} of 1 conflict is left; the language stays the same."
        for rule, left, wrong in (1, 0, False), (1, 1, True), (3, 0, True):
            told = list(choices.judged(draw, line.format(rule, left)))
            self.assertEqual([bool(it) for _, it in told], [wrong])

    def test_planted(self):
        """What the comparer plants is refused."""
        self.assertEqual(list(choices.planted()), [])


class OverTexts(Planted):
    """A grammar, and a SPEC for it."""

    def setUp(self):
        """Lays a grammar, a SPEC and a text with a mistake, and knows what is said of it."""
        super().setUp()
        self.grammar = grammar_in(b"%token NUM\n%%\ns : NUM | s '+' NUM ;\n")
        self.tables = Tables(self.grammar)
        self.spec = texts.Spec(self.grammar, random.Random(1))
        self.spec.lines, self.spec.words, self.spec.rules = [], [], []
        self.spec.skip(r"[ \n]")
        self.spec.lines.append((3, "NUM  [0-9]+", (2, texts.re.compile(b"[0-9]+"))))
        self.spec.rules = [it[2] for it in self.spec.lines]
        (self.room / "text").write_bytes(b"1 +\n2 3 +\n")


class Texts(OverTexts):
    """Verdicts on texts, and tokens, that are wrong."""

    def fault(self, check=None, tokens="NUM '+' NUM NUM '+'\n", status=1, session=0):
        """What is found where `ydebug` says this."""
        right = texts.answer(self.tables, self.spec, b"1 +\n2 3 +\n")

        def run(_, __, form, *___, given=b""):
            """A run of one of the forms."""
            if form == "check":
                return status, right if check is None else check(right), ""
            return (0, tokens, "") if form == "tokens" else (session, "", "")

        with mock.patch.object(texts, "run", run):
            return texts.fault_of_text(self.room, "ydebug", self.tables, self.spec, Counter())

    def test_right(self):
        """What is right is no fault; the column and the tokens that can come are these."""
        wanted = "text:2:3: error: unexpected NUM '3', expected end of input or '+'\n    2 3 +\n      ^\n"
        self.assertEqual(texts.answer(self.tables, self.spec, b"1 +\n2 3 +\n"), wanted)
        self.assertIsNone(self.fault())

    def test_called(self):
        """A token is called by its text where each of its lines has one, and no other takes that."""
        for looks, called in (
            (("<=", "[-]>"), '"<="'), (('"\\\\', "<="), r'"\"\\"'), (("<=", "[0-9]+"), "NUM"), ((), "NUM")
        ):
            self.spec.rules = [(2, texts.re.compile(it.encode())) for it in looks]
            self.assertEqual(self.spec.called(2), called)
        self.spec.rules = [(2, texts.re.compile(b"num"))]
        self.spec.words = [(3, b"NUM", True)]
        self.assertEqual(self.spec.called(2), "NUM")
        self.assertEqual(self.spec.called(3), "'+'")

    def test_met(self):
        """A token is told by its name and its word, or by the one that says all."""
        for word, told in (("3", "NUM '3'"), ("num", "'num'"), ("", "NUM"), ("1" * 41, f"NUM '{'1' * 40}..'")):
            self.assertEqual(texts.met(self.spec, 2, word), told)
        self.assertEqual(texts.met(self.spec, 3, "+"), "'+'")

    def test_each_change(self):
        """Another column, token, caret, status; a token less; a session that fails."""
        pairs = [
            ("2:3", "2:4"), ("NUM", "'+'"), ("end of input or ", ""), ("      ^", "     ^"), ("2 3 +", "2 3")
        ]
        right = texts.answer(self.tables, self.spec, b"1 +\n2 3 +\n")
        for wrong in changed(right, *pairs):
            self.assertTrue(self.fault(lambda _, wrong=wrong: wrong), wrong)
        for change in ({"status": 0}, {"tokens": "NUM '+' NUM NUM\n"}, {"session": 1}):
            self.assertTrue(self.fault(**change), change)

    def test_spoiled(self):
        """A refusal by a name that isn't one, and a status that isn't one, are faults."""
        good = "text:1:1: error: no line of the SPEC matches here: !\n"
        wrong = (1, "it fails\n", ""), (2, good, ""), (1, "", ""), (1, good, good)
        for answer, found in (((1, good, ""), False), *((it, True) for it in wrong)):
            (self.room / "spec").write_text(self.spec.text())
            with mock.patch.object(texts, "run", return_value=answer):
                fault = texts.fault_of_spoiled(self.room, "ydebug", random.Random(1), Counter())
            self.assertEqual(bool(fault), found, answer)


class Written(OverTexts):
    """Texts that haven't the tokens for which they stand."""

    PLAIN = "# sentence 1, the first to use rules 1, 2\nNUM '+' NUM\n# 1 sentence uses all 2 rules\n"
    TEXT = PLAIN.replace("NUM '+' NUM", "1 + 1")
    NEAR = TEXT + "# token 3 left out: rejected at token 3: unexpected $end, expected NUM\n1 +\n"
    LISTING = (
        "## head\n\n+\n## tokens   '+'\n## state 0\n\nno\n\n"
        "1 + $end\n## tokens   NUM '+' $end\n## state 4\n\nno\n\n## end\n"
    )

    def fault(self, plain=PLAIN, text=TEXT, near=NEAR, listing=LISTING, anew=None, status=0):
        """What is found where `ydebug` says this."""

        def run(_, __, form, ___, *words):
            """A run of one of the forms."""
            if form == "sentences":
                said = {0: plain, 2: text, 3: near}[len(words)]
                return status, said, ""
            if "--update" in words:
                (self.room / "made").write_text(listing if anew is None else anew)
            if "--complete" in words:
                return 0, "made: 2 inputs, complete\n", ""
            return 0, listing, ""

        parse = partial(texts.parsed, self.tables)
        with mock.patch.object(written, "run", run):
            return written.fault_of_written(self.room, "ydebug", self.spec, parse, Counter())

    def test_right(self):
        """What is right is no fault, and neither is a list without a text."""
        self.assertIsNone(self.fault())
        self.assertIsNone(self.fault(text=self.TEXT.replace("1 + 1", "# no text: NUM '+' NUM")))
        self.assertIsNone(self.fault(text=self.TEXT.replace("1 + 1", "# a text of 2 lines:\n1 +\n1")))

    def test_each_change(self):
        """A token less, what nothing matches, other tokens, another verdict; a listing that changes."""
        for wrong in changed(self.TEXT, ("1 + 1", "1 +"), ("1 + 1", "a"), ("1 + 1", "# no text: NUM")):
            self.assertTrue(self.fault(text=wrong), wrong)
        for wrong in changed(self.NEAR, ("token 3:", "token 2:"), ("\n1 +\n", "\n1\n")):
            self.assertTrue(self.fault(near=wrong), wrong)
        for wrong in changed(self.LISTING, ("\n+\n", "\n1\n"), ("$end\n##", "\n##"), ("## state 4", "##")):
            self.assertTrue(self.fault(listing=wrong), wrong)
        self.assertTrue(self.fault(anew="another"))
        self.assertTrue(self.fault(status=1))


REPLIES = "1 shift A\n2 detect\n3 pop A\n4 fail\n"


class Verdicts(Planted):
    """Verdicts that differ from a session."""

    def counted_with(self, verdict, replies=REPLIES, lines=1):
        """How much passed and failed where the two programs say this."""
        said = "".join(f"print({verdict!r})\n" * lines)
        both = self.program("ydebug", f"print('grammar.y: no choices')\n{said}")
        ystep = self.program("ystep", f"sys.stdin.read()\nsys.stdout.write({replies!r})\n")
        return self.counted(verdicts.compare, [both, ystep], "grammar.y", ["tokens"])

    def test_each_change(self):
        """Another token, another verdict, a step too many, a line too few or too many."""
        self.assertEqual(self.counted_with("tokens: rejected at token 2"), (1, 0))
        accepted = "1 shift A\n2 reduce 1\n3 accept\n"
        self.assertEqual(self.counted_with("tokens: accepted at 3", accepted), (1, 0))
        for wrong in ("rejected at token 1", "rejected at token 3", "accepted at 2", "limit"):
            self.assertEqual(self.counted_with(f"tokens: {wrong}"), (0, 1), wrong)
        self.assertEqual(self.counted_with("tokens: accepted at 4", accepted), (0, 1))
        self.assertEqual(self.counted_with("tokens: rejected at token 2", lines=0), (0, 1))
        self.assertEqual(self.counted_with("tokens: rejected at token 2", lines=2), (1, 1))


class AllErrors(Planted):
    """Errors of an input that differ from those of a session."""

    RUN = """1 shift A
2 detect
3 pop A
4 shift error
5 discard B
6 shift C
7 detect
8 shift error
9 shift C
10 shift C
11 shift C
12 detect
"""

    def counted_with(self, *numbers):
        """How much passed and failed where `ydebug` says errors at tokens of these numbers."""
        said = "".join(f"tokens: error: rejected at token {it}: unexpected A\n" for it in numbers)
        both = self.program("ydebug", f"print({said!r})\n")
        ystep = self.program("ystep", f"sys.stdin.read()\nsys.stdout.write({self.RUN!r})\n")
        return self.counted(verdicts.compare_all, [both, ystep], "grammar.y", "tokens")

    def test_each_change(self):
        """The first error alone, one that isn't reported, another token, none."""
        self.assertEqual(self.counted_with(2, 7), (1, 0))
        for wrong in ((2,), (2, 4, 7), (2, 6), (2, 7, 7), ()):
            self.assertEqual(self.counted_with(*wrong), (0, 1), wrong)


class Errors(Planted):
    """Lists of wrong inputs that are others."""

    def look(self, name):
        """What a scenario lists, and what is wrong with another list."""
        folder = SCENARIOS / "ydebug/errors" / name
        grammar = grammar_in(next(iter(folder.glob("*.y"))).read_bytes())
        text = (folder / "stdout").read_text()
        return text, lambda it: errors.differences(grammar, it, random.Random(1))

    def test_each_change(self):
        """A longer list, another last token, a state, a stack, what could come, a count, a reason,
        a list too few, a state that is told twice or not at all."""
        report, look = self.look("reasons")
        pairs = [("A A\n## state 2", "A A A\n## state 2"), ("A A\n", "A C\n")]
        pairs += [("A A\n", "A $end A\n"), ("## state 3", "## state 4")]
        pairs += [("stack    $1=A", "stack    $1=B"), ("stack    (nothing)", "stack    $1=A")]
        pairs += [("stack    $1=A", "stack    A"), ("stack    $1=A", "stack    $2=A")]
        pairs += [("expected B C", "expected B"), ("expected $end", "expected $end A")]
        pairs += [("in 4 of 9", "in 5 of 9"), ("always: 5 7 8", "always: 5 7 8 4")]
        pairs += [("always: 5 7 8", "always: 5 7"), ("before them: 4", "before them: 5")]
        pairs += [("since it is detected before them", "since each token has an action")]
        start, end = report.index("A A\n"), report.index("A B C\n")
        gone = report[:start] + report[end:]
        fewer = gone.replace("in 4 of 9", "in 3 of 9")
        hidden = fewer.replace("before them: 4", "before them: 2 4")
        self.each_caught(look, report, *changed(report, *pairs), gone, fewer, hidden)

    def test_longer(self):
        """A list that is an error at its last token, but not a shortest one."""
        report, look = self.look("at-the-end")
        longer = report.replace("'a' $end\n## state 1", "'a' 'a' $end\n## state 1")
        self.each_caught(look, report, longer)

    def test_longer_in_a_state(self):
        """A longer list that is detected in the same state, with the same stack."""
        folder = SCENARIOS / "ydebug/errors"
        grammar = grammar_in((folder / "sums.y").read_bytes())
        report = (folder / "list/stdout").read_text()
        longer = report.replace("NUM NUM\n## state 3", "NUM '+' NUM NUM\n## state 3")
        self.each_caught(
            lambda it: errors.differences(grammar, it, random.Random(1)), report, longer)

    def test_session(self):
        """A session that detects the error before or after the last token, or not at all."""
        grammar = grammar_in((SCENARIOS / "ydebug/errors/sums.y").read_bytes())
        tokens = [grammar.names.index(it) for it in ("NUM", "'+'", "'+'")]
        right = "1 shift NUM\n2 reduce 1\n3 shift '+'\n4 detect\n5 fail\n"
        late = right.replace("4 detect", "4 shift '+'\n5 detect")
        wrong = right.replace("3 shift '+'\n", ""), late

        def look(replies):
            run = mock.Mock(return_value=ended(replies))
            with mock.patch.object(errors, "ran", run):
                return errors.wrong_session("ystep", self.room, grammar, tokens)

        self.each_caught(look, right, *wrong, right.replace("detect", "accept"))

    def test_file(self):
        """A file of messages that isn't complete, and one that an update changes."""
        for said, status, left, fits in (
            (", complete\n", 0, "", True), ("\n", 0, "", False), (", complete\n", 1, "", False),
            (", complete\n", 0, "## more\n", False),
        ):
            def run(words, room, said=said, status=status, left=left):
                file = room / "messages"
                if "--update" in words:
                    file.write_text(file.read_text() + left)
                return ended(said, "", status if "--complete" in words else 0)

            with mock.patch.object(errors, "ran", run):
                self.assertEqual(not errors.wrong_file("ydebug", self.room, "text\n"), fits)


class Faults(Planted):
    """Faults that the stepper says otherwise."""

    def counted_with(self, message, status=1, out=""):
        """How much passed and failed of a file that ends too early, where this is said."""
        text = f"sys.stderr.write({message!r}); sys.stdout.write({out!r}); sys.exit({status})\n"
        ystep = self.program("ystep", text)
        with mock.patch.object(faults, "kept", lambda *_: "kept\n"):
            return self.counted(faults.compare, ystep, "name", [b"%%\ns : 'x"])

    def test_each_change(self):
        """Another code, line or status, and an acceptance."""
        self.assertEqual(self.counted_with("ystep: G2 at line 2\n"), (1, 0))
        for wrong in (("ystep: G3 at line 2\n",), ("ystep: G2 at line 1\n",), ("", 0),
                      ("ystep: G2 at line 2\n", 3), ("ystep: G2 at line 2\n", 1, "more")):
            self.assertEqual(self.counted_with(*wrong), (0, 1), wrong)


class Coverage(Planted):
    """Sentences that are none, or that use something else."""

    def answer(self, name, grammar="grammar.y"):
        """What a scenario's run writes, and the machine of its grammar."""
        below = SCENARIOS / "ydebug" / name
        file = below / grammar if (below / grammar).is_file() else below.parent / grammar
        machine = coverage.Machine(grammar_in(file.read_bytes()))
        return (below / "stdout").read_text(), machine

    def test_rules(self):
        """No sentence, a spare one, other rules, other counts, a rule that isn't found."""
        text, machine = self.answer("sentences/rules")
        pairs = [("NUM '+' NUM", "NUM NUM"), ("rules 1, 3", "rules 1, 2"), ("all 5", "all 6")]
        pairs += [("2 sentences", "3 sentences"), ("sentence 2, the first", "sentence 3, the first")]
        spare = f"# sentence 1, the first to use rules 1, 3, 4\nNAME '=' NUM\n{text}"
        lost = f"# not found, as no state reduces by it: rule 2 (line 4)  list: list ';' set\n{text}"
        look = lambda it: coverage.differences(machine, "rules", it)
        self.each_caught(look, text, *changed(text, *pairs), spare, lost)

    def test_not_found(self):
        """Rules for another reason, and one that is found."""
        text, machine = self.answer("sentences/not-found", "odd.y")
        pairs = [("as no state reduces by it", "as its left side can't be reached")]
        pairs += [("rule 9", "rule 8"), ("5 of 9", "6 of 9")]
        look = lambda it: coverage.differences(machine, "rules", it)
        self.each_caught(look, text, *changed(text, *pairs))

    def test_near(self):
        """Another verdict, another place, a list that is made otherwise."""
        text, machine = self.answer("sentences/near")
        pairs = [("rejected at token 1", "rejected at token 2"), (": accepted", ": rejected")]
        pairs += [("token 1 left out", "token 2 left out"), ("near ones", "lists")]
        look = lambda it: coverage.differences(machine, "rules", it)
        self.each_caught(look, text, *changed(text, *pairs[:1], *pairs[2:]))

    def test_random(self):
        """A sentence that isn't one, one that is refused, one with too many tokens."""
        text, machine = self.answer("sentences/random")
        pairs = [("sentence 1: accepted after", "sentence 1: rejected at"), ("4 of 4", "3 of 4")]
        look = lambda it: coverage.wrong_random(machine, it, 9)
        self.each_caught(look, text, *changed(text, *pairs))
        self.assertTrue(coverage.wrong_random(machine, text, 3))

    def test_cover(self):
        """Other counts, a part too few, another part."""
        text, machine = self.answer("cover/some")
        pairs = [("rules 3", "rules 2"), ("not used: rule 2", "not used: rule 3")]
        pairs += [("not used: state 8  ", "not used: state 1  ")]
        tokens = [machine.grammar.names.index(it) for it in ("NAME", "'='", "NUM")]
        look = lambda it: coverage.wrong_cover(machine, [tokens], it)
        fewer = "".join(text.splitlines(keepends=True)[:-1])
        self.each_caught(look, text, *changed(text, *pairs), fewer)


class Ambiguities(Planted):
    """Sentences and trees that are told of rivals, and aren't so."""

    def look(self, name):
        """What a scenario's report is, and what is wrong with another."""
        folder = SCENARIOS / "ydebug/conflicts" / name
        grammar = grammar_in((folder / "grammar.y").read_bytes())
        report = (folder / "stdout").read_text()
        return report, lambda text: ambiguities.differences(grammar, text, Counter())

    def test_two_trees(self):
        """A sentence with one tree, a rule of another left side, a leaf too few, one tree twice."""
        report, look = self.look("dangling-else")
        pairs = [("for  IF ID IF", "for  IF"), ("for  IF", "for  ELSE IF")]
        pairs += [("    statement  rule 4\n", "    list  rule 2\n"), ("        IF ID", "        IF")]
        pairs += [("  by the shift:\n", f"{ambiguities.NO_OFFER}\n  by the shift:\n")]
        first, second = report.split("  by rule 4 (line 7):\n")
        twice = report.replace(second, first.split("  by the shift:\n")[1])
        self.each_caught(look, report, *changed(report, *pairs), twice)

    def test_one_each(self):
        """No sentence, another place, another rule, one that the tables accept."""
        report, look = self.look("several-rules")
        pairs = [(":  'x' . A 'q'", ":  'x' . 'q'"), (":  'x' . A 'q'", ":  . 'x' A 'q'")]
        pairs += [("by rule 4 (line 7):", "by rule 3 (line 5):")]
        pairs += [("    The tables refuse it at its end.\n", "")]
        pairs += [("refuse it at its end.", "refuse it at token 2.")]
        pairs += [("  by the shift:", "  To choose, change the grammar.\n  by the shift:")]
        self.each_caught(look, report, *changed(report, *pairs))

    def test_each_report(self):
        """All that the scenarios say holds; those with actions in bodies have further rules."""
        for folder in sorted((SCENARIOS / "ydebug/conflicts").iterdir()):
            file = folder / "grammar.y"
            if (folder / "stdout").exists() and file.exists() and "{" not in file.read_text():
                report, look = self.look(folder.name)
                self.assertIsNone(look(report), folder.name)
