"""The machines, readers and draws in Python that others are compared with: known answers."""
import random

from checks.shared import differences, grammars, machine, precedences, reader, sentences, spelling
from checks.shared.places import EXAMPLES
from checks.shared.table_file import Foreign, table_of
from checks.shared.tables import Tables
from checks.tests.fakes import Planted, changed, grammar_in

ONE_RULE = EXAMPLES / "one-rule"
TABLE = (ONE_RULE / "tables/left/y.tab").read_text()
# A file for each fault, and what is said of it.
FAULTS = {
    b" " * 1_048_577: "G1",
    b"%% s : 'x": "G2 at line 1",
    b"%%\ns : 'xy' ;": "G3 at line 2",
    b"%%\ns : # ;": "G4 at line 2",
    b"%%\n\ns s : ;": "G5 at line 3",
    b"%token s\n%%\ns : ;": "G6 at line 3",
    b"%%\ns : t ;": "G7 at line 2",
    b"%left 'a'\n%left 'a'\n%%\ns : ;": "G8 at line 2",
    b"%token A 0\n%%\ns : A ;": "G9 at line 1",
    b"%start t\n%%\ns : ;": "G10 at line 1",
    b"%%\ns : s ;": "G11 at line 2",
    b"%%\ns : %prec s ;": "G12 at line 2",
    b"%% s :" + b" 'a'" * 256 + b" ;": "G13 at line 1",
    b"%% s : 'x' ;": "accepted",
}
CONFLICTS = b"%token A B\n%%\ns : s A s | x | y ;\nx : B ;\ny : B ;\n"


class Oracles(Planted):
    """What is known of each machine from elsewhere."""

    def test_reader(self):
        """Each fault is found where it is."""
        for text, said in FAULTS.items():
            self.assertEqual(reader.answer(text), said)

    def test_tables(self):
        """The table of an example that was worked by hand, and conflicts that were counted so."""
        tables = Tables(grammar_in((ONE_RULE / "grammar.y").read_bytes()))
        self.assertEqual(tables.text(), TABLE)
        conflicted = Tables(grammar_in(CONFLICTS))
        self.assertEqual((conflicted.shift_reduce, conflicted.reduce_reduce), (1, 2))

    def test_machine(self):
        """The replies of an example's session."""
        folder = ONE_RULE / "session"
        tables = Tables(grammar_in((ONE_RULE / "grammar.y").read_bytes()))
        commands = (folder / "stdin").read_text().splitlines()
        commands = [line for line in commands if line != "quit"]
        wanted = (folder / "stdout").read_text()
        self.assertEqual(machine.replies_of(tables, [2], commands), wanted)

    def test_draws(self):
        """What is drawn is read as what it means: the same rules, the same names."""
        rng = random.Random(1)
        for _ in range(40):
            drawn = grammars.grammar_of(rng)
            said = reader.answer(drawn.text.encode())
            fits = said == "accepted" if drawn.is_productive() else said.startswith("G11")
            self.assertTrue(fits, drawn.text)

    def test_precedences(self):
        """A draw of which nothing is thrown away has tables."""
        rng = random.Random(1)
        for _ in range(5):
            draw = precedences.whole(rng, may_end=False)
            self.assertFalse(draw.has_end)
            self.assertTrue(precedences.Cells(draw.grammar()).kept)

    def test_sentences(self):
        """A sentence is one: a parse over it is accepted."""
        text = (EXAMPLES / "one-rule/grammar.y").read_bytes()
        self.assertEqual(sentences.sentence_of(text, 9, 1), "'x'\n")
        text = b"%token A B\n%%\nlist : A | list A B | list B '(' list ')' ;\n"
        grammar = grammar_in(text)
        names = sentences.sentence_of(text, 30, 2).split()
        self.assertGreater(len(names), 9)
        tokens = [grammar.names.index(it) for it in names]
        for some, wanted in ((tokens, True), (tokens[:-1], False), ([*tokens, tokens[0]], False)):
            replies = machine.replies_of(Tables(grammar), some, ["run 999"])
            self.assertEqual(" accept\n" in replies, wanted)

    def test_spelling(self):
        """Words of tokens files and their printed names."""
        names = spelling.names_of(b"NUM '+' '\\n' '\\'' ' '")
        self.assertEqual(names, ["NUM", "'+'", r"'\012'", r"'\047'", "' '"])
        bare = spelling.bare(b"%{ x %} %union { y }\n%% s : 'x' { z } ; %% rest")
        self.assertEqual(bare, b"  %union { int none; }\n%% s : 'x' {} ; ")


class TableFiles(Planted):
    """Tables with a line or a cell that is wrong."""

    def test_each_cell(self):
        """Another cell is another table; a line less or more is none."""
        right = table_of(TABLE.encode())
        self.assertEqual(right.leads(), {1: "'x'", 2: "s"})
        pairs = [("a 0 2 s 1", "a 0 2 s 2"), ("g 0 4 2", "g 0 4 1"), ("d 1 1", "d 1 0")]
        pairs += [("2 t 120", "2 t 121"), ("1 4 1", "1 4 2"), ("states 3", "states 4")]
        for text in changed(TABLE, *pairs):
            self.assertNotEqual(table_of(text.encode()), right)
        pairs = [("end\n", ""), ("symbols 5", "symbols 6"), ("rules 2", "rules 1"), ("a 0", "x 0")]
        pairs += [("table 2", "tables 2"), ("s 1", "s one"), ("2 t", "3 t"), ("states 3", "states")]
        for text in (*changed(TABLE, *pairs), "", TABLE + "\n"):
            with self.assertRaises(Foreign):
                table_of(text.encode())


class Shown(Planted):
    """Differences are shown line by line."""

    def test_lines(self):
        """The line that differs is among what is shown, and a byte that is no text, too."""
        lines = list(differences.differences({"out": b"a\nb\n"}, {"out": b"a\nc\n"}))
        self.assertIn("-b\n", lines)
        self.assertIn("+c\n", lines)
        self.assertTrue(list(differences.differences({"out": b"\xfe"}, {"out": b"\\xfe"})))
