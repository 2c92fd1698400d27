"""Pages that show something else than `ystep` says."""
import copy
import json
from unittest import mock

from checks.pages import beside, parts, sums, test
from checks.shared.places import SCENARIOS
from checks.tests.fakes import Planted, ended

LINES = ["2 running", "stack: NUM s", "rest: '+' NUM", "counter: 1", "errors: 2"]
LINES += ["NUM@1", "(3 NUM@2 (1) error)"]
WANTED = {
    "position": 2, "mode": "running", "errors": "2", "counter": "1", "stack": ["NUM", "s"],
    "rest": ["'+'", "NUM"],
    "tree": [(1, "NUM@1"), (1, "3"), (2, "NUM@2"), (2, "1"), (2, "error")],
}


class Browser:
    """A browser that shows positions by keys."""

    def __init__(self, positions, at=0):
        self.positions, self.at = positions, at

    def press(self, key):
        """Goes to another position."""
        last = len(self.positions) - 1
        moved = {"left": self.at - 1, "right": self.at + 1, "home": 0, "end": last}[key]
        self.at = min(max(moved, 0), last)


class Pages(Planted):
    """Positions, trees and sources of a page."""

    def test_wanted(self):
        """What `show` and `tree` say is read as the page shows it."""
        self.assertEqual(test.wanted_at(LINES, 2), WANTED)

    def passed(self, shown, wanted):
        """How much passed and failed where a page shows these positions."""
        with mock.patch.object(test, "seen", lambda browser: browser.positions[browser.at]):
            browser = Browser(shown)
            return self.counted(lambda count: test.step_through(count, "it", browser, wanted))

    def test_each_part(self):
        """Each part of a position that is another one is caught."""
        wanted = [{**WANTED, "position": at} for at in range(3)]
        passed, failed = self.passed(wanted, wanted)
        self.assertEqual((passed > 0, failed), (True, 0))
        others = {"position": 9, "mode": "failed", "errors": "3", "counter": "0", "rest": ["NUM"]}
        others |= {"stack": ["s", "NUM"], "tree": WANTED["tree"][:-1]}
        for part, other in others.items():
            shown = copy.deepcopy(wanted)
            shown[1][part] = other
            self.assertGreater(self.passed(shown, wanted)[1], 0, part)
        self.assertGreater(self.passed(wanted[:2], wanted)[1], 0)

    def test_looks(self):
        """Complete items and their lookaheads, also where these take two lines."""
        said = "\n   s: 'x' .  reduce on $end\n      '+'\n   s: s . '+'  shift '+'\n"
        said += "   reduce by rule 1 on $end '+'\n"
        self.assertEqual(beside.looks_in(said), [["s: 'x' .", "reduce on $end '+'"]])

    def test_places(self):
        """A mark elsewhere, on something else, or out of sight is caught."""
        right = {"position": 0, "ahead": [2, "NUM"], "mark": "20", "line": 2, "before": "\u00e9 ",
                 "seen": True}
        wrong = {"position": 1, "mark": "2", "line": 1, "before": "\u00e9", "seen": False}
        for change in ({}, *({part: other} for part, other in wrong.items())):
            how = {"looked": lambda _, found={**right, **change}: found, "data_last": lambda _: 0}
            with mock.patch.multiple(beside, **how):
                given = "it", None, "1\n\u00e9 20".encode(), [(1, 1), (2, 4)]
                made = self.counted(lambda count, it=given: beside.try_places(count, *it))
                self.assertEqual(made[1], len(change), change)

    def test_leaves(self):
        """Another word, none, another place, and a token that lacks are caught in trees."""
        said = "s  rule 1\n  NUM 20  @2:4\n  '+'  @3:1\n(41) NUM 1..  @3:2\nA  (inserted)\n"
        leaves = [["NUM 20", "@2:4"], ["'+'", "@3:1"], ["NUM 1..", "@3:2"]]
        others = [["s", "rule 1 (line 3)"], ["A", ""]]
        for wrong in (None, ["NUM", "@2:4"], ["NUM 2", "@2:4"], ["NUM 20", "@1"]):
            shown = [wrong or leaves[0], *leaves[1:]]
            labels = [", ".join(it) for it in shown]
            for rows, drawn, told, failed in (
                (shown, leaves, labels + ["NUM 20, @2:4"], 1), (leaves, shown, labels, 1),
                (leaves, leaves, labels, 1), (shown[1:], leaves[1:], labels, 1)
            ):
                browser = mock.Mock(**{"run.return_value": (others + rows, others + drawn, told)})
                made = self.counted(lambda count, it=browser: beside.try_leaves(
                    count, "it", it, said))
                is_right = wrong is None and len(rows) == 3
                self.assertEqual(made[1], 0 if is_right else failed, f"{wrong} {rows}")

    def test_lint(self):
        """A line that is too long, ends in a blank, or runs what comes from a file."""
        for line, failed in (
            ("let a = 1;", 0), ("x" * 101, 1), ("let a; ", 1), ("e.innerHTML = a;", 1)
        ):
            made = self.counted(lambda count, line=line: test.lint_text(count, "it", line))
            self.assertEqual(made[1], failed, line)

    def test_frame(self):
        """A page with a byte before its data, none after, a < in it, or too few positions."""
        right = parts.before() + json.dumps({"record": {"kinds": "s"}}) + parts.after()
        wanted = [WANTED, WANTED]
        wrong = "x" + right, right[:-1], right.replace('"s"', '"<"'), right.replace('"s"', '"ss"')
        for text, failed in ((right, False), *((it, True) for it in wrong)):
            self.assertEqual(self.example(text, wanted)[1] > 0, failed, text[-80:])

    def example(self, text, wanted):
        """How much passed and failed of an example whose page is a text."""
        def made(_, __, ___, page):
            """A page that is made."""
            page.write_text(text)
            return ended()

        browser = mock.MagicMock()
        browser.return_value.__enter__.return_value.errors.return_value = []
        how = {"make_page": made, "wanted": lambda *_: wanted, "step_through": mock.Mock()}
        with mock.patch.multiple(test, **how, look=mock.Mock(), Browser=browser):
            given = test.try_example, None, ("ydebug", "ystep"), self.room / "one", self.room, None
            return self.counted(lambda count: test.attempt(count, "it", *given))

    def test_attempts(self):
        """What the browser refuses is a failure."""
        def broken(_):
            """A part that ends with a fault."""
            raise test.Fault("planted")

        self.assertEqual(self.counted(lambda count: test.attempt(count, "it", broken)), (0, 1))

    def test_skipped(self):
        """Without a browser a line says so."""
        with mock.patch.object(test, "missing", return_value=["chromium"]):
            paths = [f"{it}={self.program(it, '')}" for it in ("ydebug", "ystep")]
            _, said = self.said(test.main, *paths)
        self.assertIn("\nskipped: no chromium", "\n" + said)

    def test_sums(self):
        """The sum of a scenario's page is the one that is kept, and another one is another page."""
        folder = next(it.parent for it in SCENARIOS.rglob("page.json"))
        self.assertEqual(f"{sums.sum_of(folder)}\n", (folder / "stdout.sum").read_text())
        text = (folder / "page.json").read_text()
        (self.room / "page.json").write_text(text.replace('"', '"x', 1))
        self.assertNotEqual(sums.sum_of(self.room), sums.sum_of(folder))
