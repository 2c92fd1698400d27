"""Modules and pages of the playground that answer or show something else."""
import base64
import contextlib
import copy
import dataclasses
import io
import json
import random
import urllib.request
from pathlib import Path
from unittest import mock

from checks.playground import course, forms, module, page, run, wide
from checks.scenarios.folders import Fault, Scenario
from checks.tests.fakes import Planted, changed, ended

SHOW = "2 running\nstack: list NUM\nrest: ';'\ncounter: 0\nerrors: 0\n"
FIRST = "1 running\nstack: list\nrest: NUM ';'\ncounter: 0\nerrors: 0\n"
REPLIES = f"1 reduce 1\n{FIRST}2 shift NUM\n{SHOW}(1)\nNUM@1\n{SHOW}"
REPORT = """Rules
0 $accept: s $end
1 s: ':' x
2 x:
Unreachable
Tokens
0 $end
256 error
58 ':'
State 0
  $accept: . s $end
  s: . ':' x
  ':' shift 1
  s goto 2
State 1
  s: ':' . x
  x: . on $end
  $end conflicts 1 0
  . reduce 2
States 2
Conflicts 1 0
"""
COUNTS = {"rules": 3, "tokens": 3, "states": 2, "items": 4, "cells": 3, "conflicts": 1}
ANSWER = {
    "status": 0, "replies": REPLIES, "fault": {"code": 0, "line": 0, "place": 0},
    "verdict": {"outcome": 1, "steps": 5, "token": 0},
    "read": {"place": 2, "stack": ["list", "NUM"], "rest": ["';'"], "lines": ["to 2"]},
    "tokens": {"symbols": [2, 3]}, "places": [[0, 3], [4, 3]],
    "report": REPORT, "inReport": COUNTS,
}


def others(answer, *paths):
    """An answer with something else at each place."""
    for path in paths:
        other = copy.deepcopy(answer)
        *inner, last = path
        held = other
        for part in inner:
            held = held[part]
        held[last] = [] if isinstance(held[last], list) else 99
        yield other


class TheModule(Planted):
    """The checks of the module."""

    def program(self, *replies):
        """What runs give, one after another."""
        return mock.patch.object(module, "ran", side_effect=[ended(*it) for it in replies])

    def test_replies(self):
        """Another byte, a fault in the place of replies, and another fault."""
        right = ANSWER | {"status": 1, "fault": {"code": 7, "line": 3, "place": 0}}
        pairs = [(ANSWER, (REPLIES,), 0), (right, ("", "ystep: G7 at line 3\n", 1), 0)]
        texts = changed(REPLIES, ("NUM", "NIM"), ("2 shift", "3 shift"))
        pairs += [(ANSWER, (it,), 1) for it in texts]
        pairs += [(right, (REPLIES,), 1), (right, ("", "ystep: G7 at line 4\n", 1), 1),
                  (ANSWER, ("", "ystep: G7 at line 3\n", 1), 1)]
        for answer, replies, wrong in pairs:
            with self.program(replies):
                self.assertEqual(len(module.wrong_replies("ystep", self.room, answer, "")), wrong)

    def test_refusals(self):
        """Each kind of refusal in the words of ystep."""
        told = {(1, 1, 0, 0): "G1", (2, 5, 0, 4): "K5 at token 4", (2, 3, 0, 0): "K3",
                (3, 0, 0, 0): "no memory", (4, 0, 0, 0): "B1"}
        for (status, code, line, place), wanted in told.items():
            answer = {"status": status, "fault": {"code": code, "line": line, "place": place}}
            self.assertEqual(module.fault_line(answer), wanted)

    def test_verdicts(self):
        """Another number of steps, another outcome."""
        lines = "1 reduce 1\n2 shift NUM\n3 shift ';'\n4 reduce 2\n5 accept\n"
        for text, wrong in (lines, 0), (lines.replace("5 acc", "6 acc"), 1), ("1 detect\n", 1):
            with self.program((text,)):
                self.assertEqual(len(module.wrong_verdict("ystep", self.room, ANSWER)), wrong)

    def test_readings(self):
        """Another place, stack or rest is read, or another number of tokens."""
        wrong = others(ANSWER, ("read", "place"), ("read", "stack"), ("read", "rest"), ("places",))
        self.each_caught(module.wrong_reading, ANSWER, *wrong)

    def test_lines(self):
        """The lines of a session lead elsewhere, by their position or by their trees."""
        texts = [REPLIES, *changed(REPLIES, ("(1)\nNUM@1", "(1)\nNUM@2"))]
        texts += [f"{REPLIES}3 shift ';'\n{SHOW.replace('2 run', '3 run')}"]
        for text, wrong in zip(texts, (0, 1, 1)):
            other = mock.Mock(ask=mock.Mock(return_value={"replies": text}))
            self.assertEqual(len(module.wrong_lines(other, ("", ""), ANSWER)), wrong)

    def test_reports(self):
        """One thing more or less is read in a report."""
        self.each_caught(module.wrong_report, ANSWER,
                         *others(ANSWER, *(("inReport", it) for it in COUNTS)))

    def test_heap(self):
        """A heap that gives a block twice, too small ones, or more than there is."""
        source = (run.SOURCES / "heap.c").read_text()
        pairs = ("waiting[order] = found->next;", ";"), ("1ull << order <", "2ull << order <")
        wrong = changed(source, *pairs, ("if (end > 1ull << MOST)", "if (0)"))
        for text, failed in ((source, 0), *((it, 1) for it in wrong)):
            file = self.room / "heap.c"
            file.write_text(text)
            self.assertEqual(self.counted(run.compare_heap, self.room, file)[1], failed)

    def test_drawn(self):
        """What is wrong with one grammar is counted, and ends the comparison."""
        for lines, counted in ([], (5, 0)), (["wrong\n"], (0, 1)):
            how = {"wrong_answer": lambda *_, it=lines: it, "Module": mock.MagicMock()}
            with mock.patch.multiple(module, **how):
                self.assertEqual(self.counted(module.compare_drawn, "", "", 5), counted)

    def test_drawn_is_whole(self):
        """A wrong answer of each kind is one of those that a grammar's comparison finds."""
        for name in ("replies", "verdict", "reading", "lines", "report"):
            kinds = {f"wrong_{it}": mock.Mock(return_value=[it] if it == name else [])
                     for it in ("replies", "verdict", "reading", "lines", "report")}
            other = mock.Mock(ask=mock.Mock(return_value=ANSWER))
            with mock.patch.multiple(module, **kinds):
                found = module.wrong_answer(other, "", self.room, random.Random(1))
            self.assertEqual(found, [name])


LESSON = """What is counted: 2 steps.

**Questions**

1. A?
2. B?
3. C?

```file grammar.y
%%
```
```file tokens
NUM
```
```seen
steps 2
shifts 1
reduce/reduce 0
```
```report
State 0
  $accept: . s $end
..
State 1
```
"""


class TheCourse(Planted):
    """The checks of the course."""

    def counts(self, text, **other):
        """How much passed and failed of a lesson, with something else in the answers."""
        answer = {**ANSWER, "conflicts": [1, 0], **other}
        answers = mock.Mock(ask=mock.Mock(return_value=answer))
        return self.counted(course.compare_lessons, answers, [("1. One", text)])

    def answer(self, **other):
        """An answer to the one line that a lesson is asked."""
        return {"replies": f"1 reduce 1\n2 shift NUM\n{SHOW}", **other}

    def test_lessons(self):
        """Another count, another line of a report, another order, a number that is nowhere."""
        self.assertEqual(self.counts(LESSON, **self.answer()), (5, 0))
        wrong = changed(LESSON, ("steps 2\n", "steps 3\n"), ("shifts 1", "shifts 2"),
                        ("reduce/reduce 0", "reduce/reduce 1"), ("shifts", "shfits"),
                        ("  $accept: . s", "  $accept: s ."), ("State 0\n", "State 1\n"),
                        ("2 steps", "7 steps"), ("3. C?", "C?"), ("```seen", "```sene"))
        for text in wrong:
            self.assertGreater(self.counts(text, **self.answer())[1], 0, text)

    def test_refused(self):
        """A lesson whose files are refused, and a parse that comes to another end."""
        self.assertGreater(self.counts(LESSON, **self.answer(status=1))[1], 0)
        replies = f"1 reduce 1\n2 reduce 2\n{SHOW}"
        self.assertGreater(self.counts(LESSON, **self.answer(replies=replies))[1], 0)

    def test_files(self):
        """A block has the files before it, and a later one of a name is the one that counts."""
        text = LESSON + "```file tokens\nNUM NUM\n```\n```seen\nsteps 2\n```\n"
        found = [it.files["tokens"] for it in course.blocks_of(text) if it.kind == "seen"]
        self.assertEqual(found, ["NUM\n", "NUM NUM\n"])


RIGHT = forms.Run(1, b"tokens: token 2\n", b"a hint\n")
# Each has one part that is another.
WRONG = [dataclasses.replace(RIGHT, **it) for it in (
    {"status": 0}, {"out": b""}, {"out": b"tokens: token 3\n"}, {"errors": b"a hind\n"})]


def scenario(**other):
    """A scenario of `ydebug`, with something else in it."""
    wanted = {"stdout": RIGHT.out, "message": RIGHT.errors, "status": b"1\n"}
    usual = {"folder": Path("it"), "words": ["ydebug", "check", "grammar.y", "tokens"],
             "stdin": b"", "inputs": {"grammar.y": b"%%"}, "links": {}, "streams": {},
             "wanted": {**wanted, "left/grammar.y": b"%%"}}
    return Scenario(**usual | other)


def answering(*answers):
    """A module that answers so to one run after another."""
    return mock.Mock(run=mock.Mock(side_effect=answers), call=mock.Mock(side_effect=answers))


class TheForms(Planted):
    """The checks of `ydebug` in the module."""

    def test_layout(self):
        """Words and files as the call takes them."""
        self.assertEqual(forms.words_as_bytes(["check", "", "\udcff"]), b"check\0\0\xff\0")
        files = {"a": b"x\0y", "b/c": b""}
        self.assertEqual(forms.files_as_bytes(files), b"a\x003\0x\0yb/c\x000\0")

    def test_scenarios(self):
        """Another byte of an output, another status, a module that traps."""
        self.each_caught(lambda it: forms.wrong_scenario(answering(it), scenario()), RIGHT, *WRONG)
        made = forms.wrong_scenario(answering(Fault("it trapped")), scenario())
        self.assertEqual(made, ["it trapped\n"])

    def test_sums(self):
        """An output of which only the sum is kept."""
        inputs = {"stdout": b"long"}
        sum_of = forms.summed(inputs, {"stdout.sum": b""})
        wanted = {**sum_of, "message": b"", "status": b"0\n"}
        how = {"wanted": wanted, "inputs": {}}
        for text, wrong in (b"long", False), (b"lone", True):
            made = forms.wrong_scenario(answering(forms.Run(0, text, b"")), scenario(**how))
            self.assertEqual(bool(made), wrong)

    def test_reasons(self):
        """What can't be run is left out with its reason, and all else is run."""
        others = [{"wanted": {"left/new": b""}}, {"links": {"a": "b"}},
                  {"streams": {"stdin": "/dev/zero"}}, {"words": ["ydebug", "/dev/null"]},
                  {"words": ["ydebug", "./grammar.y"]}]
        some = [scenario(), *(scenario(**it) for it in others), scenario()]
        out = io.StringIO()
        with contextlib.redirect_stdout(out):
            tally = forms.Counter()
            counted = mock.Mock(take=lambda _, lines: tally.update([bool(lines)]))
            forms.compare_scenarios(answering(RIGHT, WRONG[0]), some, counted)
        self.assertEqual(tally, {False: 1, True: 1})
        self.assertEqual(out.getvalue().count("1 scenarios of ydebug are left out"), len(others))

    def test_refused(self):
        """What isn't laid out well is taken, or something is written of it."""
        for answer, failed in (forms.Run(125, b"", b""), 0), (forms.Run(2, b"", b""), 8), (
                forms.Run(125, b"x", b""), 8), (forms.Run(125, b"", b"x"), 8):
            made = self.counted(forms.compare_refused, answering(*[answer] * 8))
            self.assertEqual(made[1], failed)

    def test_runs(self):
        """A run that is another one than that of the program."""
        def wrong(answer):
            ran = ended(RIGHT.out, RIGHT.errors, RIGHT.status)
            with mock.patch.object(forms, "ran", return_value=ran):
                return forms.wrong_run(answering(answer), "ydebug", self.room, ["check"], b"")
        self.each_caught(wrong, RIGHT, *WRONG)

    def test_files(self):
        """The module gets the files of the folder, the words and the input of the program."""
        (self.room / "tokens").write_text("NUM")
        other = answering(forms.Run(0, b"", b""))
        with mock.patch.object(forms, "ran", return_value=ended(b"", b"")):
            forms.wrong_run(other, "ydebug", self.room, ["tokens"], b"where\n")
        other.run.assert_called_once_with(["tokens"], {"tokens": b"NUM"}, b"where\n")

    def test_drawn_is_whole(self):
        """Each form of a grammar's comparison, and each wrong answer of one is found."""
        for name in forms.FORMS:
            wrong = lambda *given, it=name: ["wrong\n"] if given[3] == forms.FORMS[it] else []
            how = {"wrong_run": wrong, "lines_of": lambda *_: ["where", "sav x"]}
            with mock.patch.multiple(forms, **how):
                found = forms.wrong_grammar(None, "", self.room, random.Random(1))
            self.assertEqual(found, ["wrong\n"], name)

    def test_drawn(self):
        """What is wrong with one grammar is counted, and ends the comparison."""
        for lines, counted in ([], (5, 0)), (["wrong\n"], (0, 1)):
            with mock.patch.object(forms, "wrong_grammar", return_value=lines):
                self.assertEqual(self.counted(forms.compare_drawn, None, "", 5), counted)


class ThePage(Planted):
    """The checks of the page."""

    def test_texts(self):
        """Something from elsewhere, and a page that is too large."""
        wrong = ('<script src="https://a.b/c.js">', 'fetch("x")', '<link rel="x" href="y.css">')
        for text, failed in (("<p>", 0), *((it, 1) for it in wrong)):
            self.assertEqual(self.counted(lambda count, it=text: run.look_at(count, it))[1], failed)
        letters = random.Random(1).choices("abcdefghijklmnopqrstuvwxyz", k=2 * run.MOST)
        large = self.counted(lambda count: run.look_at(count, "".join(letters)))
        self.assertEqual(large[1], 1)

    def seen(self, **other):
        """What is seen, with something else in it."""
        tree = [[0, "list", "1: list"], [0, "NUM", "1"]]
        return {"place": 2, "stack": ["list", "NUM"], "rest": ["';'"], "states": [0, 1, 3],
                "now": ["State 3"], "tree": tree, **other}

    def test_positions(self):
        """Each part of what is seen that is another one is caught."""
        other = {"place": 3, "stack": ["list"], "rest": [], "states": [0, 1], "now": ["State 1"],
                 "tree": [[0, "list", "1: list"]]}
        answers = mock.Mock(ask=mock.Mock(return_value=ANSWER))
        for part in [None, *other]:
            seen = self.seen(**({part: other[part]} if part else {}))
            shown = mock.Mock(**{"seen.return_value": seen, "texts.return_value": ("", "")})
            made = self.counted(
                lambda count, it=shown: page.compare(count, "it", it, answers, ["to 2"]))
            self.assertEqual(made[1] > 0, part is not None, part)

    def test_trees(self):
        """The rows of a tree with literals and errors."""
        rows = [[0, "2"], [1, "'('", "1"], [1, "3"], [1, "error"], [0, "' '", "7"]]
        self.assertEqual(page.rows_of(["(2 '('@1 (3) error)", "' '@7"]), rows)

    def test_cards(self):
        """The blocks of a report, and the texts of their cards."""
        block = "grammar.y:7:11: warning: conflict 1: state 3 on B: shift\n  shift  B\n    A ."
        report = f"grammar.y: 1 shift/reduce\n  a cause\n\n{block}\n\ngrammar.y:9: warning: x\n"
        head, *blocks = page.report_blocks(report)
        self.assertEqual(head, "grammar.y: 1 shift/reduce\n  a cause")
        self.assertEqual(blocks, [block, "grammar.y:9: warning: x"])
        card = "conflict 1: state 3 on B: shift 7:11shift  B\n  A ."
        self.assertEqual([page.card_of(it) for it in blocks], [card, "x line 9"])

    def shown(self, texts):
        """A page that shows texts by their names, and always the same of a parse."""
        made = mock.MagicMock(**{"seen.return_value": self.seen(), "value.return_value": "",
                                 "texts.return_value": ("", "")})
        made.text.side_effect = lambda name: texts.get(name, "")
        return made

    def failed(self, deed, texts, told):
        """How many things of a deed fail, where a page shows texts and ydebug says something."""
        module_told = mock.Mock(told=mock.Mock(side_effect=lambda *_: told))
        return self.counted(lambda count: deed(count, self.shown(texts), module_told))[1]

    def test_reasons(self):
        """Another reason is shown than ydebug gives, or one of another cell."""
        told = {"out": "state 33 on ELSE: shift\n", "errors": "", "status": 0}
        here = {"out": "state 3 on ';': shift\n", "errors": "", "status": 0}
        right = {"why-here": "state 3 on ';': shift", "why-there": "state 33 on ELSE: shift"}
        answers = mock.Mock(told=lambda words, files, lines: here if " 3 " in lines else told)
        for texts, wrong in ((right, 0), ({**right, "why-there": right["why-here"]}, 2),
                             ({**right, "why-here": ""}, 2)):
            found = self.counted(lambda count, it=texts: page.try_reasons(
                count, self.shown(it), answers))
            self.assertEqual(found[1], wrong, texts)

    def test_page_of_a_parse(self):
        """The frame has another page's data, or stands elsewhere; another line of ydebug."""
        data = '<script type="application/json" id="data">{1}</script>'
        told = {"out": data, "errors": "", "status": 0}
        right = {"data": "{1}", "title": "input, parsed by grammar.y", "place": "1 of 9",
                 "told": data}
        self.assertEqual(self.failed(page.try_page, right, told), 0)
        for name, wrong in (("data", "{2}"), ("title", "x"), ("place", "0 of 9"), ("told", "")):
            self.assertEqual(self.failed(page.try_page, {**right, name: wrong}, told), 1, name)

    def test_programs(self):
        """A program that is given goes before the proved one, by its whole path."""
        (self.room / "ystep").write_text("")
        words = [f"ystep={self.room}/ystep", "ydebug=is/nowhere"]
        self.assertEqual(run.program_of(words, "ystep"), f"{self.room}/ystep")
        self.assertIsNone(run.program_of(words, "ydebug"))

    def test_skipped(self):
        """Without node, ystep and a browser lines say so."""
        file = self.room / "page.html"
        file.write_text("<p>")
        none = mock.patch.object(run.shutil, "which", return_value=None)
        with none, mock.patch.object(run.pages, "missing", return_value=["chromium"]):
            _, said = self.said(run.main, f"--at={file}")
        self.assertIn("\nskipped: there is no node\n", "\n" + said)
        self.assertIn("\nskipped: no chromium", "\n" + said)


def coded(run_of):
    """A run as the script in a browser answers it."""
    out, errors = (base64.b64encode(it).decode() for it in (run_of.out, run_of.errors))
    return {"status": run_of.status, "out": out, "errors": errors}


class TheWideModule(Planted):
    """The checks of the module with addresses of 64 bits."""

    def test_address(self):
        """What a tab answers comes back from its address."""
        tab = mock.Mock(say=lambda request: {"bytes": request["texts"][0], "status": 2})
        body = json.dumps({"call": "session", "texts": ["QQ=="]}).encode()
        with wide.answered(tab) as address, urllib.request.urlopen(address, body) as reply:
            self.assertEqual(json.loads(reply.read()), {"bytes": "QQ==", "status": 2})

    def test_scenarios(self):
        """A run that is otherwise than its scenario has it, or that trapped."""
        for answer, wrong in (coded(RIGHT), 0), *((coded(it), 1) for it in WRONG), (
                {"broken": "it trapped"}, 1):
            tab = mock.Mock(say=mock.Mock(return_value=answer))
            some = mock.Mock(stored=lambda: [scenario()], compare_refused=lambda *_: None,
                             compare_scenarios=forms.compare_scenarios, Ydebug=forms.Ydebug)
            with mock.patch.multiple(wide, forms=some, compare_ystep=lambda *_: None):
                made = self.counted(wide.compare_tab, tab)
            self.assertEqual(made, (1 - wrong, wrong), answer)
            self.assertEqual(tab.say.call_args[0][0]["call"], "ydebug")

    def test_width(self):
        """A module of 32 bits in the place of the one of 64."""
        wide.Tab(mock.Mock(run=mock.Mock(return_value=True)), b"")
        with self.assertRaises(Fault):
            wide.Tab(mock.Mock(run=mock.Mock(return_value=False)), b"")

    def test_both_programs(self):
        """The scenarios of ystep are run by a program that asks the tab's address."""
        asked = []
        with mock.patch.multiple(wide, forms=mock.Mock(),
                                 compare_ystep=lambda _, program, *__: asked.append(
                                     Path(program).read_text())):
            wide.compare_tab(mock.Mock(), mock.Mock())
        self.assertIn("ystep.js http://127.0.0.1:", asked[0])
