"""Programs over the library that answer something else, and libraries that are wrong."""
from unittest import mock

from checks.library import run
from checks.scenarios.folders import Fault, Scenario
from checks.tests.fakes import Planted, changed, ended

WANTED = {"stdout": b"1 shift NUM\n", "message": b"", "status": b"0\n"}
SUM = "7 passed, 0 failed\n"
PAGE = "```c\nint main(void) { return 0; }\n```\n\nwrites\n\n```text\n```\n"


class Library(Planted):
    """The checks of the library."""

    def test_scenarios(self):
        """Other bytes, another status, a file more, a run that didn't end."""
        it = Scenario(None, ["ystep"], b"", {}, {}, {}, WANTED)
        others = [WANTED | {"stdout": b"1 shift NIM\n"}, WANTED | {"status": b"3\n"}]
        others += [WANTED | {"left/y.tab": b""}, Fault("it had not ended")]
        self.each_caught(lambda made: run.wrong(it, made), WANTED, *others)

    def test_meant(self):
        """Scenarios of other programs, and those that ask for help, are left out."""
        pairs = (["ystep", "a", "b"], True), (["ystep", "-h"], False), (["yacc"], False)
        for words, meant in pairs:
            it = Scenario(None, words, b"", {}, {}, {}, WANTED)
            self.assertEqual(run.is_meant(it), meant)

    def test_sums(self):
        """A failure counted, a status, a complaint of a sanitizer, no sum at all."""
        right = ended(SUM), 7 + 1, 0
        wrong = [ended("6 passed, 1 failed\n", "", 1), ended(SUM, "", 9), ended(SUM, "ERROR"),
                 ended(), ended("7 passed\n")]
        self.assertEqual(self.counted(run.count, "it", right[0]), right[1:])
        for made in wrong:
            self.assertEqual(self.counted(run.count, "it", made)[1], 1, made)

    def test_names(self):
        """A call that isn't exported, and a name that is."""
        for found, failed in (run.CALLS, 0), (run.CALLS - {"sulderko_judge"}, 2), ({"malloc"}, 2):
            with mock.patch.object(run, "names_in", return_value=found):
                self.assertEqual(self.counted(run.compare_names, self.room)[1], failed)

    def test_header(self):
        """A header that is no C89 and no C++."""
        header = self.room / "sulderko.h"
        for text, failed in ("", 0), ("// a comment\n", 1), ("int f(int class);\n", 1):
            header.write_text(text)
            with mock.patch.object(run, "HEADERS", self.room):
                self.assertEqual(self.counted(run.compare_header, self.room)[1], failed)

    def test_examples(self):
        """An example is a block of code and the text after it; it writes something else."""
        self.assertEqual(run.examples_of(PAGE), [("c", "int main(void) { return 0; }\n", "")])
        self.assertEqual(run.examples_of(PAGE.replace("```text", "```sh")), [])
        code = "print('list NUM')\n"
        for wanted in ("list NUM\n", *changed("list NUM\n", ("NUM", "NIM"), ("\n", ""))):
            example = "python", code, wanted
            failed = self.counted(run.compare_example, self.room, self.room, example)[1]
            self.assertEqual(bool(failed), wanted != "list NUM\n")
