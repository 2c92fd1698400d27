"""Documents whose commands a reader can run, and many that mislead one: each of these must fail."""
import re
import shutil
import unittest

from checks.scenarios import manuals, readers
from checks.scenarios.shown import answer_to, blocks_of
from checks.shared.tally import Tally
from checks.tests.fakes import Planted

# Each program shows the files that it is given, or answers each line that is typed.
PROGRAM = """#!/bin/sh
if [ $# -gt 0 ]; then cat "$@"; exit; fi
while read -r line; do echo "said $line"; done
"""
SET_IN = """# A page

Put this into `one`:

    a line

    another

and ask, of this file and of one in `examples/one-rule`:

    $ cp grammar.y kept
    $ cd ..
    $ ydebug one-rule/kept
    ..
    s : 'x' ;

## Typed

Elsewhere is the file of above:

    $ ydebug one
    a line

    another
    $ ystep
    > first
    said first
    > second
    said second

In general:

    ydebug [-v] grammar
"""
FENCED = """The table is written by `make install TABLE_WRITER=1` and

```file two
of the page
```

```session
$ yacc two
of the page
```

```session status=1
$ ycc absent
cat: absent: No such file or directory
```

```shell
$ ydebug two > three && echo more >> three
```

```left three
of the page
more
```

```lua
> nothing of ours
```
"""
MANUAL = r""".Dd November 27, 2026
.Dt P 1
.Os
.Sh NAME
.Nm p
.Nd shows
.Sh EXAMPLES
Put a line into
.Pa it :
.Bd -literal -offset indent
a \e and a \(dq
.Ed
.Pp
It is shown:
.Bd -literal -offset indent
$ ydebug it; printf '\eb\en' | od -An -c
a \e and a \(dq
  \eb  \en
.Ed
.Bl -column "a long one" "another"
.It Sy "first" Ta Sy "second"
.It "a long one" Ta another
.It "" Ta "none before"
.El
"""
WIDE = '"a cell of words that go on and on" Ta "another cell whose words go on, too far"'


def changed(text, *pairs):
    """A text with a change, for each pair."""
    for old, new in pairs:
        assert old in text, old
        yield text.replace(old, new)


class Documents(Planted):
    """Documents that are read from their beginning to their end."""

    def setUp(self):
        """Makes the programs."""
        super().setUp()
        for name in readers.PROGRAMS:
            file = self.room / f"{name}-program"
            file.write_text(PROGRAM)
            file.chmod(0o755)

    def wrong(self, text, name="page.md"):
        """The lines of a document at which something fails."""
        page = self.room / name
        page.write_text(text)
        programs = [f"{it}={self.room / it}-program" for it in readers.PROGRAMS]
        _, said = self.said(readers.main, *programs, str(page))
        failed = re.findall(rf"(?m)^--- {name}[: ](.*) FAILED$", said)
        self.assertRegex(said, rf"\n{len(failed)} failed$|, {len(failed)} failed\n$")
        return failed

    def test_set_in(self):
        """Commands that are set in: files, folders, and what is typed."""
        self.each_caught(self.wrong, SET_IN, *changed(
            SET_IN,
            ("    a line\n\n    another\n    $ ystep", "    a line\n    another\n    $ ystep"),
            ("Put this into `one`", "This is a file"),
            ("    $ ydebug one\n", "    $ ydebug none\n"),
            ("    $ ydebug one\n", "    $ ydebugger one\n"),
            ("    $ ydebug one\n", "    $ yacc one\n"),
            ("    $ ydebug one\n", "    before\n    $ ydebug one\n"),
            (", of this file and of one in `examples/one-rule`", ""),
            ("`examples/one-rule`", "`examples/absent`"),
            ("`examples/one-rule`:\n", "`examples/one-rule`:\n\n## Below\n"),
            ("    $ cd ..\n", ""),
            ("    ..\n    s :", "    s :"),
            ("    said first\n    > second\n", "    > second\n    said first\n"),
            ("    said second\n", "    said second\n    and more\n"),
            ("    $ ystep\n", "\nAnd\n\n"),
        ))

    def test_fenced(self):
        """Blocks between fences, as those of the tutorial."""
        self.each_caught(self.wrong, FENCED, *changed(
            FENCED,
            ("TABLE_WRITER=1", "YACC_LINK=1"),
            ("status=1", "status=2"),
            (" status=1", ""),
            ("file two", "file too"),
            ("of the page\nmore", "of the page"),
            ("left three", "left four"),
            ("$ yacc two\n", "$ yacc two | sort\nand more\n"),
            ("```lua", "```session"),
        ))

    def test_manual(self):
        """A manual page: its escapes are what they stand for, and its tables have lines."""
        def look(text):
            return self.wrong(text, "p.1")

        self.each_caught(look, MANUAL, *changed(
            MANUAL, ("Put a line into", "Here is"), ("$ ydebug it;", "$ ydebug that;"),
            (r"a \e and a \(dq" "\n  ", r"a \(dq and a \(dq" "\n  "),
        ))

    def test_what_is_shown(self):
        """What a page shows of a command is found; what it doesn't show isn't."""
        self.assertEqual(answer_to(FENCED, "yacc two"), b"of the page\n")
        self.assertEqual(answer_to(SET_IN, "ystep"), b"said first\nsaid second\n")
        with self.assertRaises(StopIteration):
            answer_to(FENCED, "yacc three")

    def test_lines(self):
        """A command has the line in which it stands."""
        lines = SET_IN.splitlines()
        found = [it for block in blocks_of(SET_IN) for it in block.commands()]
        self.assertEqual([lines[it.line - 1] for it in found], [f"    $ {it.text}" for it in found])
        lines = MANUAL.splitlines()
        found = [it for block in blocks_of(MANUAL, True) for it in block.commands()]
        self.assertEqual([lines[it.line - 1][:9] for it in found], ["$ ydebug "])


class Tables(Planted):
    """Tables of manual pages."""

    def test_rows(self):
        """A row has the cells of its source, without those that are empty."""
        wanted = [("first", "second"), ("a long one", "another"), ("none before",)]
        self.assertEqual(list(manuals.rows_of(MANUAL)), wanted)
        right = ["", "     first       second", "     a long one  another", "   none before"]
        self.each_caught(
            lambda lines: manuals.wrong_in(wanted, set(manuals.lines_of("\n".join(lines)))),
            right, right[:-1], [*right[:2], "  a long  one", "another", right[3]],
            [it.replace("second", "Second") for it in right], [" ".join(right)],
        )

    def test_overstruck(self):
        """Letters that are struck twice, and in colours, are themselves."""
        line = "  b\bbo\bol\bld\bd   \x1b[1mbright\x1b[0m"
        self.assertEqual(manuals.lines_of(line), [("bold", "bright")])

    @unittest.skipUnless(shutil.which("groff") or shutil.which("mandoc"), "no formatter")
    def test_formatters(self):
        """A row that is too wide for a line is caught, by whatever formatter is there."""
        for name, text in (("right.1", MANUAL), ("wide.1", MANUAL.replace(
                '"a long one" Ta another', WIDE))):
            (self.room / name).write_text(text)
        tally = Tally()
        manuals.look_at_manuals([self.room / "right.1"], tally)
        self.assertEqual(tally.failed, 0)
        passed, failed = self.counted(manuals.look_at_manuals, [self.room / "wide.1"])
        self.assertEqual((passed, failed > 0), (0, True))
