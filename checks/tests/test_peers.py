"""Comparisons with bison, byacc and packages that use them: answers that differ."""
import html
import os
import random
from collections import Counter
from pathlib import Path
from types import SimpleNamespace
from unittest import mock

from checks.peers import automata, bison, builds, cells, drawn, features, imports, package_inputs
from checks.peers import package_tests, packages
from checks.peers.automata import Automaton
from checks.peers.cells import Comparison
from checks.peers.package_inputs import Case, Outcome
from checks.shared.precedences import whole
from checks.tests.fakes import Planted, changed, ended


class FakeState:
    """A state of bison, as the tables of the machine in Python have it."""

    def __init__(self, ours, state):
        names = ours.grammar.names
        gotos = ((symbol, to) for (at, symbol), to in ours.gotos.items() if at == state)
        self.ways = {names[symbol]: to for symbol, to in gotos}
        self.errors, self.reductions, self.lost = set(), {}, Counter()
        for (at, token), (action, counts) in ours.kept.items():
            if at == state:
                self.take(names[token], action, counts)

    def take(self, name, action, counts):
        """What the state does on a token."""
        if action is None:
            self.errors.add(name)
            self.lost[name] += 1
        elif action[0] == "r":
            self.reductions[name] = str(action[1])
            self.ways.pop(name, None)
        elif action == ("acc",):
            self.ways[name] = 0
        self.lost[name] += counts


class Cells(Planted):
    """Cells of bison that do something else."""

    def compared(self, change):
        """What differs with a change in the states of bison; one state is that of our number."""
        draw = whole(random.Random(5), may_end=False)
        ours = cells.Cells(draw.grammar())
        states = [FakeState(ours, state) for state in ours.states]
        change(states)
        found = Comparison(draw, states)
        return found.deeds, found.conflicts

    def test_each_change(self):
        """Another rule, an error, a conflict more, a conflict less."""
        self.assertEqual(self.compared(lambda _: None), ([], []))

        def first(states, kind):
            """The first state that has some of a kind, and a token of it."""
            at = next(it for it in states if getattr(it, kind))
            return at, next(iter(getattr(at, kind)))

        def other_rule(states):
            """A reduction by another rule."""
            at, name = first(states, "reductions")
            at.reductions[name] = str(int(at.reductions[name]) + 1)

        def error(states):
            """An error in place of a reduction."""
            at, name = first(states, "reductions")
            at.errors.add(name)

        def more(states):
            """A conflict where there is none."""
            at, name = first(states, "reductions")
            at.lost[name] = 0 if at.lost[name] else 1

        self.assertTrue(self.compared(other_rule)[0])
        self.assertTrue(self.compared(error)[0])
        self.assertTrue(self.compared(more)[1])

    def test_each_answer(self):
        """Not refused, refused for nothing, conflicts that stay or don't, other counts."""
        counted = "shift/reduce conflicts, as bison counts them: 2\n"
        counted += "reduce/reduce conflicts, as bison counts them: 1\n"
        stays, may_not = f"a change{cells.STAY}\n{counted}", f"a change{cells.MAY_NOT}\n{counted}"

        def look(wanted):
            """A look at an answer where this is wanted."""
            return lambda answer: cells.judged(wanted, *answer)

        swapped = stays.replace(": 2", ": 9").replace(": 1", ": 2")
        self.each_caught(
            look((False, True, (2, 1))), (0, stays), (0, may_not), (1, stays), (0, swapped)
        )
        self.each_caught(look((False, False, (2, 1))), (0, may_not), (0, stays), (2, may_not))
        refused = 1, "g.y:3: error: a cell\n"
        self.each_caught(
            look((True, True, (2, 1))), refused, (0, refused[1]), (1, "no\n"), (1, stays)
        )

    def test_counts(self):
        """The counts of a report are those of its lines."""
        text = "State 3 conflicts: 2 shift/reduce, 1 reduce/reduce\n"
        text += "State 5 conflicts: 4 shift/reduce\n"
        self.assertEqual(bison.conflicts_in(text), (6, 1))
        self.assertEqual(bison.conflicts_in(text.replace("4 s", "5 s")), (7, 1))
        self.assertEqual(bison.said_counts("", 7), (7, 7))


def automaton(rules, ways, conflicts):
    """An automaton by its parts."""
    made = Automaton()
    made.rules, made.ways, made.conflicts = rules, ways, conflicts
    return made


class Imports(Planted):
    """Imports whose tables or actions differ."""

    RULES = [["$accept", "s", "$end"], ["s", "A", "s"], ["s", "A"]]
    WAYS = [{"A": 1, "s": 2}, {"A": 1, "s": 3}, {"$end": 4}, {}, {}]
    CONFLICTS = [set(), {"A"}, set(), set(), set()]

    def test_each_change(self):
        """A rule, a way, a conflict, a state that is another."""
        theirs = automaton(self.RULES, self.WAYS, self.CONFLICTS)

        def look(parts):
            """What differs between bison's automaton and one of `yacc`."""
            return automata.difference(theirs, automaton(*parts))[0]

        ours = self.RULES, [*self.WAYS[:2], {}, {}], self.CONFLICTS[:4]
        wrong = [(ours[0][:2], *ours[1:]), ([*ours[0][:2], ["s", "B"]], *ours[1:])]
        wrong += [(ours[0], [{"A": 1, "s": 3}, *ours[1][1:]], ours[2])]
        wrong += [(ours[0], [{"A": 1}, *ours[1][1:]], ours[2])]
        wrong += [
            (*ours[:2], [set(), set(), set(), set()]), (*ours[:2], [{"A"}, {"A"}, set(), set()])
        ]
        self.each_caught(look, ours, *wrong)

    def test_actions(self):
        """Actions that an import changed: a text, an order, one too few."""
        text = b"%union { int i; }\n%%\ns : A { one('}'); } B { two(\"{\"); /* } */ } ;\n"
        text += b"%%\n{ rest }"
        wanted = [b"{ one('}'); }", b'{ two("{"); /* } */ }']
        self.assertEqual(imports.actions_of(text), wanted)
        for other in (text.replace(b"one", b"uno"), text.replace(b"{ one('}'); }", b"")):
            self.assertNotEqual(imports.actions_of(other), wanted)

    def look(self, change):
        """What is found of a grammar, with a change of what programs do."""
        source = b"%%\ns : 'x' { it } ;\n"
        import_of = {
            "text": source, "said": "", "counts": (0, 0), "difference": (None, "told"), **change
        }

        def ran(words, folder, *_):
            """A run of `ydebug`, bison or `yacc`."""
            (folder / "bison.output").write_text("")
            if "imported.y" in words:
                (folder / "imported.y").write_bytes(import_of["text"])
            return ended("", import_of["said"], change.get(words[0], 0))

        how = {"ran": ran, "counted": lambda *_: import_of["counts"], "by_bison": mock.Mock()}
        how |= {"difference": lambda *_: import_of["difference"], "by_yacc": mock.Mock()}
        with mock.patch.multiple(imports, **how):
            return imports.looked_at("ydebug", "yacc", self.room, source)[0]

    def test_each_end(self):
        """Other actions, other counts, another automaton, and a file that `yacc` refuses."""
        right = {}
        wrong = {"text": b"%%\ns : 'x' { that } ;\n"}, {"counts": (1, 0)}
        wrong += {"difference": ("it differs", "")}, {"yacc": 1, "said": "yacc: G7 at line 2"}
        self.each_caught(self.look, right, *wrong)


class Features(Planted):
    """Programs of `ycc` that do something else than those of its peer."""

    def look(self, check, *given):
        """The lines that say why a check fails."""
        return features.wrong((check, *given))

    def test_runs(self):
        """Another output, message or status, an output that is missing."""
        right = b"1\n", b"out\n", b"", 0
        for made in (
            (b"1\n", b"other\n", b"", 0), (b"1\n", b"out\n", b"x", 0), (b"1\n", b"out\n", b"", 1)
        ):
            self.assertTrue(self.look(features.compare_results, {"gcc": [right]}, {"gcc": [made]}))
        self.assertFalse(self.look(features.compare_results, {"gcc": [right]}, {"gcc": [right]}))
        silent = {"gcc": [(b"1\n", b"", b"", 0)]}
        self.assertTrue(self.look(features.compare_results, silent, silent))

    def test_making(self):
        """A message where the peer has none, a file too many, a file too few."""
        right = [""], {"parser.c", "parser.h"}
        self.assertFalse(self.look(features.compare_making, right, right))
        for made in ((["warning"], right[1]), ([""], {"parser.c"}), ([""], {*right[1], "more"})):
            self.assertTrue(self.look(features.compare_making, right, made))

    def test_told(self):
        """Words that ycc alone is to say: they are missing, or there is more."""
        files = {"parser.c"}
        for said, wrong in (("a.y: not done\n", False), ("", True), ("not done\nmore\n", True)):
            found = self.look(features.compare_making, ([""], files), ([said], files), "not done")
            self.assertEqual(bool(found), wrong)

    def test_refused(self):
        """Another line, other words, another status, a file that is left."""
        file = self.room / "some.y"
        file.write_text("%%\n/* refused below: no such thing */\ns : ;\n")
        text = "sys.stderr.write('some.y:3: no such thing\\n')\nsys.exit(1)\n"
        pairs = [(":3:", ":2:"), ("such", "other"), ("exit(1)", "exit(0)")]
        pairs += [("sys.exit", "open('parser.c', 'w')\nsys.exit")]
        numbers = iter(range(9))

        def look(program):
            """What is wrong with a program that refuses the file."""
            ycc = self.program(f"ycc{next(numbers)}", program)
            return self.look(features.refuse, file, ycc, None)

        self.each_caught(look, text, *changed(text, *pairs))

    def test_told_as_peer(self):
        """Another place, other words, another kind, one sentence too few, another status."""
        file = self.room / "some.y"
        file.write_text("/* bison tells: -Wall */\n%%\ns : ;\n")
        said = "some.y:3.5: warning: empty rule [-Wempty-rule]\nsome.y: error: other\n"
        ours = said.replace("3.5", "3:5") + "  a note\n"
        texts = ours, ours.replace("3:5", "3:6"), ours.replace("empty", "full", 1)
        texts += ours.replace("warning", "error"), ours.replace("some.y: error: other\n", "")
        runs = [(text, 1, text != ours) for text in texts] + [(ours, 0, True)]
        for text, status, wrong in runs:
            both = ended(b"", said.encode(), 1), ended(b"", text.encode(), status)
            with mock.patch.object(features, "run", side_effect=both):
                self.assertEqual(bool(self.look(features.compare_told, file, "ycc", None)), wrong)

    def test_graphs(self):
        """States have other numbers; another edge, another label, a state that isn't there."""
        file = self.room / "some.y"
        first = '// bison\n\ndigraph {\n  0 [label="State 0\\n\\l"]\n'
        first += '  0 -> 1 [style=solid label="a"]\n'
        first += '  0 -> 2 [style=dashed label="s"]\n  1 [label="State 1\\n\\l"]\n'
        first += '  2 [label="State 2\\n\\l"]\n  2 -> "2R0" [style=solid]\n "2R0" [label="Acc"]\n}\n'
        other = first.translate(str.maketrans("12", "21"))
        for peer, text, wrong in (
            ("bison", first.replace("bison", "ycc"), False), ("bison", other, True),
            ("byacc", other, False), ("byacc", other.replace("solid", "dotted", 1), True),
            ("byacc", other.replace("Acc", "another"), True),
            ("byacc", first.replace('"2R', '"1R'), True),
        ):
            file.write_text(f"/* {peer} draws: -Wnone */\n%%\ns : 'a' 'b' ;\n")
            graphs = iter([first, text])

            def draw(_words, room, **_how):
                """A run that writes a graph."""
                Path(f"{room}/parser.dot").write_text(next(graphs))
                return ended(b"", b"", 0)

            with mock.patch.object(features, "run", side_effect=draw):
                found = self.look(features.compare_graph, file, "ycc", None)
                self.assertEqual(bool(found), wrong)

    def test_reports(self):
        """A state with another number, a line too few, a page without a line, a status."""
        file = self.room / "some.y"
        file.write_text("/* bison draws: -Wnone */\n%%\ns : 'a' '<' ;\n")
        report = "State 0\n\n    0 $accept: . s $end\n\n    '<'  shift, and go to state 1\n"
        page = html.escape(report, quote=False).replace("State 0", '<a id="state_0">State 0</a>')
        page = f"<html>\n<pre>\n{page}</pre>\n</html>\n"
        short = report.replace("State 0\n", "")
        for text, shown, status, wrong in (
            (report, page, 0, False), (report.replace("0", "1"), page, 0, True),
            (short, page.replace('<a id="state_0">State 0</a>\n', ""), 0, True),
            (report, page.replace("shift", "reduce"), 0, True), (report, page, 1, True),
        ):
            def write(words, room, text=text, shown=shown, status=status, **_how):
                """A run that writes a report."""
                is_ours = words[0] == "ycc"
                Path(f"{room}/parser.output").write_text(text if is_ours else report)
                Path(f"{room}/parser.html").write_text(shown)
                return ended(b"", b"", status if is_ours else 0)

            with mock.patch.object(features, "run", side_effect=write):
                found = self.look(features.compare_report, file, "ycc", None)
                self.assertEqual(bool(found), wrong)

    def test_warnings(self):
        """A compiler's warning fails a case of ycc."""
        (self.room / "grammar.y").write_text("")
        case = features.Case(self.room, {}, "bison", "c90")
        maker = features.Maker(["ycc"], True)
        for status, said, wrong in (
            (0, b"", False), (1, b"", True), (0, b"a.c:1:2: warning: it\n", True)
        ):
            with mock.patch.object(features, "run", return_value=ended(b"", said, status)):
                found = self.look(features.compiled, case, maker, "gcc", self.room)
            self.assertEqual(bool(found), wrong)


    def test_calls(self):
        """A program is called by the name that a case tells, and the peer has words of its own."""
        shell, case = "/bin/sh", features.Case(self.room, {}, "bison", "c90")
        case.lines = {"ycc": ["-s"], "called": ["some/bison"], "theirs": ["-y"]}
        peer, ours = features.makers_of(case, shell)
        self.assertEqual((peer.words, ours.words), (["bison", "-y"], [shell, "-s"]))
        for maker, name in ((ours, "some/bison"), (features.Maker([shell], True), shell)):
            made = maker.run(["-c", "echo $0"], self.room)
            self.assertEqual(made.stdout, f"{name}\n".encode())


# A build: it writes a parser, and a calculator that answers.
BUILT = f"""echo made by it > calc.c
printf '#!/bin/sh\\ncat {builds.CALCULATOR}/answers\\n' > calc
chmod +x calc
"""


class Builds(Planted):
    """Builds of a calculator that take another parser, or none."""

    def look(self, script, needs=()):
        """The lines that say what is wrong with a build."""
        generator = builds.Generator("made -y", "made", "/bin/true", "made by it")
        room = self.room / str(len(list(self.room.iterdir())))
        way = builds.Way("one", script, "calc.c", needs)
        return builds.wrong(way, generator, "%%\n", room)

    def test_each_way(self):
        """A parser that is out of date, other answers, another status, no program that is needed."""
        pairs = [("made by it", "made by others"), ("calc.c", "other.c"), ("cat ", "wc ")]
        pairs += [("chmod", "false; chmod")]
        self.each_caught(self.look, BUILT, *changed(BUILT, *pairs))
        self.assertTrue(self.look(BUILT, ("no-such-program",)))

    def test_laid(self):
        """Each way finds its files, with the generator in them, beside those that are out of date."""
        generator = builds.generator_of("some/ycc")
        for way in builds.WAYS:
            room = self.room / way.name
            builds.lay(way, generator, "%%\n", room)
            self.assertTrue(all((room / it).read_text() == builds.STALE for it in builds.STALE_NAMES))
            texts = [generator.filled(way.script), *((room / it).read_text() for it in way.files)]
            links = [os.readlink(room / "links" / it) for it in ("yacc", "bison")]
            self.assertEqual(links, [generator.path] * 2)
            is_told = generator.path in "".join(texts) or "$PWD/links" in way.script
            self.assertTrue(is_told, way.name)


class FakeBuild:
    """A build of a package."""

    def __init__(self, name, calls=1):
        self.room, self.calls = Path(name), ["a call"] * calls

    def has(self, _):
        """It has each file."""
        return True


class Packages(Planted):
    """Packages whose tests or programs come to something else."""

    def test_tests(self):
        """A test that ends otherwise, one too few and one too many."""
        right = {"one": "PASS", "two": "PASS"}
        for found, wrong in ((right, 0), ({**right, "two": "FAIL"}, 1), ({"one": "PASS"}, 1),
                             ({**right, "three": "PASS"}, 1)):
            package = mock.Mock(tests=lambda it, found=found: found if it == "ours" else right)
            with mock.patch("builtins.print"):
                self.assertEqual(packages.tests_compared(package, "peer", "ours")[1], wrong)

    def test_numbered(self):
        """What autotest tells of each test, in any order."""
        said = " 2: one (a ok) x.base FAILED (t.at:3)\n10: two ok\n## 3: no ##\n 1: three  skipped (t)"
        build = mock.Mock(room="/room")
        build.shell = mock.Mock(return_value=mock.Mock(stdout=said))
        wanted = {"it 2: one (a ok) x.base": "FAILED", "it 10: two": "ok", "it 1: three": "skipped"}
        self.assertEqual(package_tests.numbered(["it"], build), wanted)

    def test_outcomes(self):
        """Another output, message or status; what differs by memory is told apart."""
        peer, case = Outcome(0, b"out", b""), Case("text 0", b"text", 1)
        reader = mock.Mock(designs=())
        others = Outcome(1, b"out", b""), Outcome(0, b"out", b"err"), Outcome(0, b"", b"")
        for ours, word in ((peer, "alike"), *((it, "differ") for it in others)):
            outcomes = lambda _, build, *__, ours=ours, **___: ours if build == "ours" else peer
            with mock.patch.object(package_inputs, "outcome", outcomes):
                made = package_inputs.judged(reader, "ours", "peer", case)
            self.assertEqual(made.word, word)

    def test_sum(self):
        """What differs is counted as failed, and so is a package that isn't compared."""
        package = mock.Mock()
        package.name = "it"
        with mock.patch("builtins.print"):
            made = packages.summed(package, (2, 1), Counter(alike=3, differ=2, complaints=1), 0)
            self.assertEqual(made, (5, 3))
            with mock.patch.object(packages, "looked_at", side_effect=packages.Unbuilt("planted")):
                self.assertEqual(packages.counted(package, None, None, None), (0, 1))

    def test_calls(self):
        """A generator that is called less often than the peer's."""
        for calls, wrong in ((1, False), (0, True), (2, True)):
            builds = [FakeBuild("peer"), FakeBuild("ours", calls)]
            with mock.patch.object(packages, "built", side_effect=builds):
                try:
                    given = [SimpleNamespace(name=it) for it in ("peer", "ours")]
                    packages.both_built(None, None, self.room, given)
                    found = False
                except packages.Unbuilt:
                    found = True
            self.assertEqual(found, wrong)

    def test_spoil(self):
        """Most spoiled texts are others."""
        rng = random.Random(1)
        spoiled = [package_inputs.spoil(b"a + b * 12", [b"x y"], rng) for _ in range(40)]
        self.assertGreater(len({*spoiled}), 10)


class Drawn(Planted):
    """Packages of an index, and parsers that differ."""

    INDEX = """Package: one
Build-Depends: debhelper (>= 9),
 bison, libbison-dev
Files:
 00112233445566778899aabbccddeeff 120 one.dsc
 00112233445566778899aabbccddeeff 3000 one.tar.xz

Package: two
Build-Depends: libbison-dev, bisonc++, byacc-j

Package: three
Build-Depends-Arch: byacc [linux-any]
"""

    def test_users(self):
        """The generator and the size of each user, and no package that only sounds like one."""
        apt = SimpleNamespace(index=lambda: self.INDEX)
        found = [(it.name, it.generator, it.size) for it in drawn.users(apt)]
        self.assertEqual(found, [("one", "bison", 3120), ("three", "byacc", 0)])
        given = SimpleNamespace(words=[], most=0.003, seed=1)
        self.assertEqual([it.name for it in drawn.drawn(drawn.users(apt), given)], ["three"])

    def test_tokens(self):
        """The numbers of tokens, as bison, byacc and we write them."""
        texts = "    A = 258,     /* A  */\n    B = 259      /* \"b\"  */\n", "#define A 258\n#define B 259\n"
        for text in (*texts, "  YYEMPTY = -2,\n  A = 258,\n  B = 259\n};\n"):
            self.assertEqual(drawn.TOKEN.findall(text), [("A", "258"), ("B", "259")])

    def test_outside(self):
        """What asks for another parser, and what only speaks of one."""
        for text, name in (
            (b"%glr-parser\n%%", "GLR"),
            (b'%language "c++"\n', "C++"),
            (b'%language "Java"\n', "another language"),
            (b"%define api.push-pull push\n", "a push parser"),
            (b"/* %glr-parser */ %{ %glr-parser %}\n%%", ""),
            (b'%skeleton "yacc.c"\n%language "C"\n', ""),
        ):
            self.assertEqual(drawn.outside(text), name)

    def test_verdicts(self):
        """A refusal, other numbers and an error more of ours; errors of both don't count."""
        peer = drawn.Made(tokens=(("A", "258"),), errors=((True, "x"), (True, "x")))
        self.assertEqual(drawn.verdict(peer, peer)[0], drawn.PARTLY)
        self.assertEqual(drawn.verdict(drawn.Made(tokens=peer.tokens), peer)[0], drawn.PARTLY)
        whole = drawn.Made(tokens=peer.tokens)
        self.assertEqual(drawn.verdict(whole, whole)[0], drawn.ALIKE)
        lost = drawn.Made(tokens=peer.tokens, errors=(*peer.errors, (False, "y")))
        self.assertEqual(drawn.verdict(lost, peer)[0], drawn.PARTLY)
        for ours, theirs, word in (
            (drawn.Made(refusal="no"), peer, "refused"),
            (drawn.Made(tokens=(("A", "259"),)), peer, "other tokens"),
            (drawn.Made(tokens=peer.tokens, errors=((True, "x"),) * 3), peer, "doesn't compile"),
            (drawn.Made(tokens=peer.tokens, errors=((True, "y"),)), peer, "doesn't compile"),
            (lost, whole, "doesn't compile"),
        ):
            self.assertEqual(drawn.verdict(ours, theirs)[0], word)
        self.assertEqual(drawn.verdict(peer, drawn.Made(refusal="no"))[0], "not counted")
