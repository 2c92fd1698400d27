"""Edits that the prover must refuse: read, put into groups, judged, and kept."""
import os
import re
import unittest
from unittest import mock

from checks.gate import checking, edits, functions, kept, mutants
from checks.gate.refusals import Said
from checks.shared.places import TOP
from checks.tests.fakes import Planted

SOURCE = """//! Numbers of which all is known.
#![tactic(auto)]

ghost use Rattle.std.specs.Prelude.{◌≡◌, ◌≤◌};

/// What nobody asks for.
pub const LEAST: u64 = 3;

/// The first of two numbers.
pub fn first(a: u64, b: u64) -> u64
    ensures { result ≡ a }
{
    let _other = b;
    a
}

/// The first again.
pub fn same(a: u64, b: u64) -> u64
    ensures { result ≡ a }
{
    first(a, b)
}

/// The second of two numbers.
pub fn second(a: u64, b: u64) -> u64
    ensures { result ≡ b }
{
    let _other = a;
    b
}

/// The third of three numbers.
pub fn third(a: u64, b: u64, c: u64) -> u64
    ensures { result ≡ c }
{
    second(a, second(b, c))
}

/// One that is no more than the first.
pub fn least(a: u64, b: u64) -> u64
    ensures { result ≤ a }
{
    let is_less = b < a;
    if is_less { b } else { a }
}
"""
PROOF = """use Rattle.std.proofs.Common.{rules, ◌≤◌}
use Rattle.tiny.proofs.least.Goals as goal

pub returns-else-is_less : goal.returns-else-is_less
returns-else-is_less c = search rules
"""
# What each edit changes, and what must become of it.
EDITS = {
    "first_is_the_second": (("    a", "    b"), "refused"),
    "first_is_nought": (("    a", "    0"), "refused"),
    "callee_alone_is_refused": (("    first(a, b)", "    first(a, a)"), "PROVED: "),
    "means_the_same": (("let _other = a;", "let _some = a;"), "PROVED"),
    "does_not_compile": (("second(a, second(b, c))", "second(a, second(b, d))"), "BAD: not comp"),
    "is_not_there": (("let other = b;", "let other = a;"), "BAD: not applied"),
    "loses_names": (
        ("    if is_less { b } else { a }", "    let it = is_less; if it { b } else { a }"),
        "BAD: names lost",
    ),
}


def edit_text(path, *pairs):
    """The text of an edit of a file."""
    return f"file: {path}\n" + "".join(f"old: {old}\nnew: {new}\n" for old, new in pairs)


class Tiny(Planted):
    """A crate of five functions, with edits that go wrong in each way."""

    def setUp(self):
        """Lays the crate out."""
        super().setUp()
        self.folder = self.room / "crates/tiny"
        self.lay("crates.txt", "tiny:\n")
        self.lay("crates/tiny/src/lib.rt", SOURCE)
        self.lay("crates/tiny/proofs/least/Answers.antt", PROOF)
        for name, ((old, new), _) in EDITS.items():
            self.lay(f"edits/tiny/{name}.edit", edit_text("src/lib.rt", (old, new)))

    def lay(self, path, text):
        """Lays a file out."""
        file = self.room / path
        file.parent.mkdir(parents=True, exist_ok=True)
        file.write_text(text)

    def tried(self, *words):
        """The status of the command, and what it says."""
        with mock.patch.object(mutants, "store", return_value=kept.own_folder(self.room / "kept")):
            return self.said(lambda given: mutants.main(given, self.room), *words)

    def applied(self, name):
        """An edit of the crate, applied."""
        found = {it.name: it for it in edits.edits_of("tiny", self.room)}
        return edits.applied(found[name], self.folder, edits.known_of(self.folder))


class Tried(Tiny):
    """The prover itself."""

    def test_each_verdict(self):
        """Each edit has its own verdict, whatever stands beside it; refusals alone are kept."""
        status, said = self.tried()
        self.assertEqual(status, 1)
        for name, (_, wanted) in EDITS.items():
            lines = re.findall(rf"(?m)^tiny/{name}: (.*)$", said)
            self.assertEqual(len(lines), 1, said)
            self.assertTrue(lines[0].startswith(wanted), lines)
        self.assertEqual(said.splitlines()[-1], "2 passed, 5 failed")
        self.assertEqual(len([*(self.room / "kept").iterdir()]), 2)
        status, said = self.tried("tiny/first_is_the_second", "tiny/first_is_nought")
        self.assertEqual((status, said.count("in one check")), (0, 0))
        self.assertIn("tiny/first_is_nought: refused: (kept) ", said)


class Laid(Tiny):
    """Edits before any check."""

    def touched(self, name):
        """The functions that an edit of the crate touches."""
        return [it.name for it in self.applied(name).touched]

    def test_not_applied(self):
        """A text that is there twice or never, no file, no pair, and a text that is the same."""
        bad = [
            edit_text("src/lib.rt", ("a: u64", "b: u64")),
            edit_text("src/lib.rt", ("nowhere", "b")),
            edit_text("src/other.rt", ("a", "b")),
            edit_text("../tiny/src/lib.rt", ("LEAST", "MOST")),
            edit_text("src/lib.rt", ("LEAST", "LEAST")),
            edit_text("src/lib.rt"),
            "old: LEAST\nnew: MOST\n",
            "file: src/lib.rt\nnew: MOST\n",
        ]
        for text in bad:
            self.lay("edits/tiny/bad.edit", text)
            with self.subTest(text=text), self.assertRaises(edits.Bad):
                self.applied("bad")
        status, said = self.tried("--plan")
        self.assertEqual((status, said.splitlines()[-1]), (1, "6 passed, 2 failed"))

    def test_twice(self):
        """Two edits of one name are refused."""
        self.lay("crates/tiny/must-fail/loses_names.edit", "")
        with self.assertRaises(edits.Bad):
            edits.edits_of("tiny", self.room)

    def test_groups(self):
        """Two of one function are apart, and what is in no body goes alone."""
        pairs = {
            "constant": ("u64 = 3", "u64 = 4"),
            "clause": ("    ensures { result ≤ a }", "    ensures { a ≤ a }"),
            "head": ("pub fn third(a", "pub fn third(b"),
        }
        for name, pair in pairs.items():
            self.lay(f"edits/tiny/{name}.edit", edit_text("src/lib.rt", pair))
            self.assertFalse(self.touched(name), name)
        self.lay("edits/tiny/proof.edit", edit_text("proofs/least/Answers.antt", ("pub ", "")))
        self.assertFalse(self.touched("proof"))
        self.assertEqual(self.touched("first_is_nought"), ["first"])
        names = [*pairs, "proof", "first_is_nought", "first_is_the_second", "loses_names"]
        found = edits.grouped([self.applied(name) for name in names])
        self.assertEqual([len(it) for it in found], [1, 1, 1, 1, 2, 1])

    def test_cited(self):
        """A function whose theorem another proof names, or that is in a cycle, goes alone."""
        self.assertEqual(edits.cited_in(self.folder), set())
        self.lay("crates/tiny/proofs/Other.antt", "use Rattle.tiny.proofs.first.Met.{met}\n")
        self.assertEqual(edits.cited_in(self.folder), {"first"})
        self.assertFalse(self.touched("first_is_nought"))
        (self.folder / "proofs/Other.antt").unlink()
        self.assertEqual(self.touched("first_is_nought"), ["first"])
        source = SOURCE.replace("pub fn first", "#[cycle(x)]\npub fn first")
        self.lay("crates/tiny/src/lib.rt", source)
        self.assertFalse(self.touched("first_is_nought"))

    def test_left_out(self):
        """What the gate leaves out is tried by name, and a name of nothing ends the command."""
        self.lay("edits/left-out.txt", "# seconds\ntiny/loses_names 12\n")
        for words, count in (([], 5), (["--all"], 6), (["tiny"], 6), (["tiny/loses_names"], 1)):
            self.assertIn(f"{count} passed", self.tried("--plan", *words)[1])
        self.lay("edits/left-out.txt", "tiny/no_such 12\n")
        with self.assertRaises(SystemExit):
            self.tried("--plan")

    def test_no_library(self):
        """An edit over a library that nobody proved is bad."""
        self.lay("crates.txt", "low:\ntiny: low\n")
        status, said = self.tried("tiny/first_is_nought")
        self.assertEqual(status, 1)
        self.assertIn("tiny/first_is_nought: BAD: not tried: there is no library low", said)


class Functions(unittest.TestCase):
    """Names of functions, as the prover has them."""

    IMPLS = {
        "<D> Link<D>": "Link",
        "<W: Write + Drop> Link<Buffered<W>>": "Link+Buffered+W",
        "<R: Read> Read for Link<R>": "LinkRead",
        "Drop for Parts": "Parts",
        "<'a> From<GrammarFault> for Trouble<'a>": "TroubleFromGrammarFault",
        "<T: Drop> From<AllocFailed<T>> for JudgeFault": "JudgeFaultFromAllocFailed",
        "Journal<PlaceParser>": "Journal+PlaceParser",
        "Lexeme<'_>": "Lexeme",
        "fmt::Display for Name": "NameDisplay",
    }

    def test_impls(self):
        """Types alone, with what they are made of, and with a trait."""
        for text, name in self.IMPLS.items():
            self.assertEqual(functions.name_of_impl(text), name)

    def test_homes(self):
        """A method stands where its type does, and a function and one of a trait's where they do."""
        texts = {
            "src/a.rt": "pub struct Row;\nenum Twice {}\n",
            "src/b.rt": "impl Row {\n    fn len(&self) {}\n}\nimpl Twice {\n    fn it() {}\n}\n"
            "impl Drop for Row {\n    fn drop(self) {}\n}\nfn row() {}\nstruct Twice;\n",
        }
        homes = functions.homes_in(texts)
        found = functions.functions_in("src/b.rt", texts["src/b.rt"], homes)
        names = ["a::Row::len", "b::Twice::it", "a::Row::drop", "b::row"]
        self.assertEqual([it.name for it in found], names)

    def test_ends(self):
        """A function ends with its brace, one without a body before the next item."""
        text = """trait Rows {
    fn row(&self) -> u64
        ensures { result ≡ 3 };

    /// Another.
    fn other(
        &self,
    ) -> u64
        ensures { result ≡ 4 }
    {
        match self {
            _ => 4,
        }
    }
}
fn last() {}"""
        found = functions.functions_in("src/a/rows.rt", text, {})
        names = [f"a::rows::{it}" for it in ("Rows::row", "Rows::other", "last")]
        self.assertEqual([it.name for it in found], names)
        lines = [(it.first, it.body, it.last) for it in found]
        self.assertEqual(lines, [(1, 2, 2), (5, 9, 13), (15, 15, 15)])


class Judged(Tiny):
    """What is made of what a check says."""

    NOTE = "note: src/lib.rt:14:5: it is not proved that it holds (`returns`)\n"
    OPEN = "fn tiny::first: no proof: expected answers in ./proofs/first/Answers.antt\n"
    CALLS = "fn tiny::first: no proof: it calls `tiny::second`, which is not proved\n"
    FILE = "./proofs/first/Answers.antt:12:50: error: `returns`: "

    def verdict(self, text, status=1, name="first_is_nought"):
        """The kind of what is said of an edit after a check that says this."""
        ran = checking.Ran(status, text, 0.0)
        return mutants.judged(self.applied(name), ran, Said(text, "tiny")).kind

    def test_each(self):
        """Own goals refuse; those of callees, lost names and another function's goals don't."""
        not_proved = "fn tiny::first: not proved\n"
        kinds = {
            self.NOTE + self.OPEN: "refused",
            self.OPEN: "refused",
            f"{self.FILE}the two types differ\n{not_proved}": "refused",
            self.CALLS: "PROVED",
            self.NOTE.replace("14", "21") + self.CALLS: "PROVED",
            "fn tiny::first: proved\n": "PROVED",
            f"{self.FILE}module `M` has no `returns`\n{not_proved}": "BAD",
            "fn tiny::first: could not tell\n": "BAD",
            "fn tiny::first: no proof: antt did not admit its contract or its `statement`\n": "BAD",
            "fn tiny::second: proved\n": "BAD",
            "src/lib.rt:14:5: error[mismatched-types]: expected `u64`\n": "BAD",
            "src/lib.rt:11:5: error: `x` is not in scope\n" + self.OPEN: "BAD",
            "src/lib.rt:14:5: error: `returns`: no proof of it\n" + self.CALLS: "refused",
            "it says nothing\n": "BAD",
            "": "BAD",
            "antt: module 'Rattle-low-x' differs. Run the lower steps again\n" + self.OPEN: "BAD",
        }
        for text, kind in kinds.items():
            with self.subTest(text=text):
                self.assertEqual(self.verdict(text), kind)
        self.assertEqual(self.verdict("", -9), "BAD")

    def test_whole(self):
        """An edit of a constant is refused by any goal, but not by names alone."""
        self.lay("edits/tiny/constant.edit", edit_text("src/lib.rt", ("u64 = 3", "u64 = 4")))
        last = "logic=not-proved\n"
        kinds = {
            self.NOTE + self.OPEN + last: "refused",
            f"{self.FILE}module `M` has no `returns`\n{last}": "BAD",
            "src/lib.rt:14:5: error[mismatched-types]: expected `u64`\n": "BAD",
        }
        for text, kind in kinds.items():
            self.assertEqual(self.verdict(text, name="constant"), kind)
        self.assertEqual(self.verdict("logic=proved\n", 0, "constant"), "PROVED")

    def test_parts(self):
        """What doesn't compile goes by itself, and what nobody can place is halved."""
        group = [self.applied(it) for it in ("first_is_nought", "does_not_compile", "loses_names")]
        line = next(at for _, at in group[1].lines)
        said = Said(f"src/lib.rt:{line + 1}:5: error[unknown-name]: no `d`\n", "tiny")
        self.assertEqual(mutants.parts_of(group, said), [[group[0], group[2]], [group[1]]])
        said = Said("error[too-large]: no place\n", "tiny")
        self.assertEqual(mutants.parts_of(group, said), [group[:1], group[1:]])

    def test_strays(self):
        """A function that no edit touches and that isn't proved leaves no verdict beside it."""
        texts = {
            1: self.NOTE + self.OPEN,
            2: self.NOTE + self.OPEN + "fn tiny::third: no proof: expected answers in ./p\n",
        }
        for count, text in texts.items():
            ran = checking.Ran(1, text + "fn tiny::least: no proof: expected it\n", 0.0)
            with mock.patch.object(mutants, "checked", return_value=ran) as checked:
                self.tried("--anew", "tiny/first_is_nought", "tiny/loses_names")
            self.assertEqual(checked.call_count, {1: 1, 2: 3}[count])

    def test_closures(self):
        """A closure belongs to its function, at the root and below."""
        first = self.applied("first_is_nought").touched
        own = "fn tiny::fn::first::any: no proof: expected it\n"
        for text, count in ((own, 0), (own.replace("first", "firsts"), 1), (self.OPEN, 0)):
            self.assertEqual(len(Said(text, "tiny").strays(first)), count, text)


class Told(Planted):
    """The table of mutants in the page on proofs."""

    ROW = re.compile(r"(?m)^\| `(\w+)` \| ([^|]*?) *\| ([^|]*?) *\|$")

    def rows_of(self, text):
        """The crates of the table, each with what the gate tries and what it leaves out."""
        table = text[text.index("| crate | tried by the gate |") :].partition("\n\n")[0]
        return {
            crate: [sorted(it.split("; ") if it else []) for it in both]
            for crate, *both in self.ROW.findall(table)
        }

    def test_rows(self):
        """Each edit stands there by its name, in the row of its crate and the right column."""
        wanted, out = {}, mutants.left_out(TOP)
        for crate in checking.repository(TOP).crates:
            for edit in edits.edits_of(crate, TOP):
                name = edit.name.replace("_", " ") + ("*" if edit.by_rt else "")
                wanted.setdefault(crate, ([], []))[str(edit) in out].append(name)
        wanted = {crate: [*map(sorted, both)] for crate, both in wanted.items()}
        self.assertEqual(self.rows_of((TOP / "docs/PROOFS.md").read_text()), wanted)


class Keeping(Planted):
    """Entries that are damaged."""

    def test_damaged(self):
        """Another key, another kind, half a text and no text count for nothing."""
        store = kept.Kept(self.room)
        store.keep("key", "src/lib.rt:1: it")
        self.assertEqual(store.find("key"), "src/lib.rt:1: it")
        good = (self.room / "key").read_text()
        for text in ("", good[:-3], good.replace("key", "yek", 1), good.replace('"key"', '"no"')):
            (self.room / "key").write_text(text)
            self.assertIsNone(store.find("key"), text)
        (self.room / "key").write_text('{"key": "key", "refused": 3}')
        self.assertIsNone(store.find("key"))
        self.assertIsNone(kept.Kept(self.room, is_new=True).find("key"))

    def test_folder(self):
        """A folder is this user's alone; a link or a file in its place is none."""
        made = kept.own_folder(self.room / "a/b")
        self.assertEqual(made.stat().st_mode & 0o777, 0o700)
        os.symlink(made, self.room / "link")
        (self.room / "file").write_text("")
        for name in ("link", "file", "file/below"):
            self.assertIsNone(kept.own_folder(self.room / name), name)
        kept.Kept(None).keep("key", "it")

    def test_bound(self):
        """Only so many entries stay, those that were used last."""
        store = kept.Kept(self.room)
        for at in range(5):
            store.keep(f"key{at}", "it")
            os.utime(self.room / f"key{at}", (at, at))
        with mock.patch.object(kept, "MOST", 2):
            store.shrink()
        self.assertEqual(sorted(it.name for it in self.room.iterdir()), ["key3", "key4"])
