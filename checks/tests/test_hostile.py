"""Programs that go wrong between devices, at limits, on full disks and hostile streams."""
import itertools
from functools import partial
from unittest import mock

from checks.hostile import beginnings, between, limits, outputs, run, strange, unsaid
from checks.hostile.devices import Device
from checks.hostile.sessions import SHORT, reply_to_beginning
from checks.scenarios.cases import Beginning, scenario
from checks.shared.libraries import DEVICES, library_in
from checks.tests.fakes import Planted, changed

# What copies a file by two writes, and says where one of them failed.
COPY = r"""
text = open("in", "rb").read()
try:
    out = os.open("out", os.O_WRONLY | os.O_CREAT, 0o644)
    for part in (text[:2], text[2:]):
        if os.write(out, part) != len(part):
            raise OSError
except OSError:
    sys.stderr.write("p: cannot write out\n")
    sys.exit(3)
"""
# What replies to lines of a session as they come, up to its end.
SESSION = f"replies = {dict(SHORT.replies)!r}\n" + r"""
line = b""
while True:
    byte = os.read(0, 1)
    line += byte
    if byte == b"\n" or not byte and line:
        os.write(1, replies.get(line.decode().rstrip("\n"), "unknown command\n").encode())
        line = b""
    if not byte:
        break
"""


def all_of(results):
    """All lines that say what is wrong."""
    return [line for _, lines in results for line in lines]


class Hostile(Planted):
    """A test with programs of several versions."""

    def setUp(self):
        """Counts the versions."""
        super().setUp()
        self.numbers = itertools.count()

    def programs(self, text, name="p"):
        """A program by its name, of a version of its own."""
        folder = self.room / str(next(self.numbers))
        folder.mkdir()
        file = folder / name
        file.write_text(f"{self.head()}{text}")
        file.chmod(0o755)
        return {name: str(file)}

    def head(self):
        """The first lines of a program."""
        path = self.program("head", "")
        with open(path, encoding="utf-8") as file:
            return file.read()


class Between(Hostile):
    """Calls that fail."""

    def test_each_way(self):
        """A failure that isn't said, is said otherwise, or is followed by another write."""
        library = library_in(self.room, DEVICES)
        it = scenario(["p"], {"in": b"abcdef"}, **{"left/out": b"abcdef"})
        told = {"message": b"p: cannot write out\n", "status": b"3\n"}
        text = between.Text(it, "out", "left/out", told)

        def look(program):
            """What is wrong with a program."""
            device = Device("write", "out", how="fail", most=0)
            return all_of(between.written(text, device, self.programs(program), library))

        pairs = [
            ("sys.exit(3)", "sys.exit(0)"),
            ("cannot write", "can not write"),
            ("sys.exit(3)", "pass"),
        ]
        pairs += [("    sys.stderr.write", "    os.write(out, text)\n    sys.stderr.write")]
        pairs += [("text[2:]", "text[3:]")]
        self.each_caught(look, COPY, *changed(COPY, *pairs))
        whole = COPY.replace("    for part", "    text += b'g'\n    for part")
        self.assertTrue(look(whole))

    def test_never_called(self):
        """A program that doesn't go through the device was not looked at."""
        library, it = library_in(self.room, DEVICES), scenario(["p"], {})
        results = between.in_turn(it, Device("write", "out"), None, self.programs(""), library)
        self.assertTrue(all_of(results))

    def test_beginnings(self):
        """What isn't a beginning, or is one of another length."""
        part = Beginning(b"abc", 1, 2)
        for text, fits in (
            (b"a", True), (b"ab", True), (b"abc", False), (b"", False), (b"b", False)
        ):
            self.assertEqual(part.fits(text), fits)
        self.assertFalse(part.fits(None))

    def test_replies(self):
        """The reply to a line that is cut off."""
        self.assertEqual(reply_to_beginning("run 1", "run 12", "1 a\n2 b\n"), "1 a\n")
        self.assertEqual(reply_to_beginning("ru", "run 12", "1 a\n"), "unknown command\n")


class Limits(Hostile):
    """Files at limits."""

    TABLE = beginnings.table_of("'x'", False).decode()

    def yacc(self, message, status, table):
        """A `yacc` that says this."""
        text = f"sys.stderr.write({message!r})\n"
        if table:
            text += f"open('y.tab', 'w').write({table!r})\n"
        return self.programs(f"{text}sys.exit({status})\n", "yacc")

    def test_refused(self):
        """Another fault, another status, an acceptance."""
        def look(said):
            """What is wrong with what is said of a file that is too long."""
            given = "name", "text", "G1", 0, 0, self.yacc(*said)
            return all_of(limits.table_is_right(*given))

        right = "yacc: G1\n", 1, ""
        wrong = ("yacc: G2\n", 1, ""), ("yacc: G1\n", 3, ""), ("", 0, self.TABLE)
        self.each_caught(look, right, *wrong, ("yacc: G1\n", 1, self.TABLE))

    def test_accepted(self):
        """Another count of states or conflicts, and no table."""
        def look(said):
            """What is wrong with what is said of a file with one conflict."""
            given = "name", "text", None, 3, 1, self.yacc(*said)
            return all_of(limits.table_is_right(*given))

        line = "conflicts: 0 shift/reduce, 1 reduce/reduce\n"
        right = line, 0, self.TABLE
        wrong = ("", 0, self.TABLE), (line.replace("1", "2"), 0, self.TABLE), (line, 0, "")
        states = self.TABLE.replace("states 3", "states 4")
        self.each_caught(look, right, *wrong, (line, 0, states), (line, 0, self.TABLE[:-5]))

    def test_beginnings(self):
        """Each beginning of a file, where one is answered as another."""
        def look(answer):
            """What is wrong where both programs refuse a beginning so."""
            text = "name = os.path.basename(sys.argv[0])\n"
            text += f"sys.stderr.write(name + {answer!r})\nsys.exit(1)\n"
            programs = self.programs(text, "yacc") | self.programs(text, "ystep")
            return all_of(beginnings.looked_at("%%", "G5", programs))

        self.each_caught(look, ": G5 at line 1\n", ": G4 at line 1\n", ": G5 at line 2\n", "")


class Outputs(Hostile):
    """Outputs of the debugger."""

    # What writes its output beside its file, or says that it can't.
    WRITE = r"""
text = open("in", "rb").read()
try:
    new = os.open("new", os.O_WRONLY | os.O_CREAT, 0o644)
    if os.write(new, text) != len(text):
        raise OSError
    os.rename("new", "out")
except OSError:
    os.unlink("new")
    sys.stderr.write("p: cannot write out\n")
    sys.exit(3)
"""

    def test_disks(self):
        """A file that is cut, one that is left beside it, a full disk that isn't said."""
        told = {"message": b"p: cannot write out\n", "status": b"3\n"}
        pairs = [
            ('"new", os.O_W', '"out", os.O_W'), ("    os.unlink", "    #"), ("sys.exit(3)", "pass")
        ]
        pairs += [("cannot write", "wrote")]

        def look(text):
            """What is wrong with a program on a full disk."""
            inputs = {"in": b"x" * 2_000, "out": b"old"}
            return all_of(outputs.on_a_full_disk(["p"], inputs, self.programs(text), **told))

        self.each_caught(look, self.WRITE, *changed(self.WRITE, *pairs))

    def test_pipes(self):
        """A program whose output nobody reads has to end quietly with 141."""
        quiet = "try:\n    os.write(1, b'x')\nexcept BrokenPipeError:\n    sys.exit(141)\n"
        wrong = quiet.replace("141", "1"), quiet.replace("141", "'told'"), "pass\n"

        def look(text):
            """What is wrong with a program."""
            return all_of(outputs.unread(scenario(["p"], {}), "stdout", self.programs(text)))

        self.each_caught(look, quiet, *wrong)

    def test_files(self):
        """Rights that change, and a second name that is lost."""
        right = "with open('out', 'wb') as file:\n    file.write(b'new')\n"
        beside = "open('new', 'wb').write(b'new')\nos.rename('new', 'out')\n"
        both = {"left/out": b"new", "left/same": b"new"}
        for back, *looks in (({"left/out": b"new"}, outputs.with_rights, outputs.has_rights),
                             (both, outputs.with_two_names, outputs.has_two_names)):
            it = scenario(["p"], {"out": b"old"}, **back)
            look = partial(self.look_kept, it, *looks)
            self.each_caught(look, right, beside, right.replace("new", "now"))

    def look_kept(self, it, prepare, look, text):
        """What is wrong with a program that writes a file."""
        return all_of(outputs.kept(it, self.programs(text), prepare, look))

    def test_spent(self):
        """Kinds that are neither told nor counted."""
        right = "dense.y: 1 shift/reduce, 0 reduce/reduce, in 3 table entries of 3 groups\n"
        right += "dense.y:3:1: warning: conflict 1: state\n"
        right += "2 groups more; the search for their lists of tokens would take too long:\n"
        pairs = [
            ("of 3 groups", "of 4 groups"),
            ("2 groups more", "1 groups more"),
            ("conflict 1", "conflict"),
        ]

        def look(text):
            """What is wrong with a report."""
            programs = self.programs(f"sys.stdout.write({text!r})\n", "ydebug")
            with mock.patch.object(outputs, "dense", return_value=""):
                return all_of(outputs.spent(1, programs))

        self.each_caught(look, right, *changed(right, *pairs), "")


    def test_soon(self):
        """A report that takes longer than it may."""
        late = "import time\nend = time.process_time() + 0.3\n"
        late += "while 'conflicts' in sys.argv and time.process_time() < end:\n    pass\n"

        def look(text):
            """What is wrong with a program."""
            with mock.patch.object(outputs, "SOON", 0.2):
                return all_of(outputs.soon(b"", self.programs(text, "ydebug")))

        self.each_caught(look, "pass\n", late)


# What says something and writes a file, and tells by its status whether it was said.
SAYS = r"""
status = 0
try:
    os.write(2, b"said\n")
except OSError:
    status = 1
with open("x.c", "w") as file:
    file.write("made")
sys.exit(status)
"""
# What keeps lists and reports them, and ends quietly where nobody reads.
KEEPS = r"""
os.mkdir("lists")
for number in range(16):
    open(f"lists/{number}", "w").close()
try:
    os.write(1, b"told\n")
except BrokenPipeError:
    sys.exit(141)
"""


class Unsaid(Hostile):
    """Messages and reports that nobody gets."""

    def test_messages(self):
        """A file that isn't written where nothing can be said, another file, another status."""
        given = ["p"], {"one.y": b""}, 1
        pairs = [("status = 1", "sys.exit(1)"), ("status = 1", "pass")]
        pairs += [('file.write("made")', "file.write(str(status))")]

        def look(one, text):
            """What is wrong with a program."""
            return all_of(one(*given, self.programs(text)))

        for one in (unsaid.full, unsaid.closed):
            self.each_caught(partial(look, one), SAYS, *changed(SAYS, *pairs))
        silent = SAYS.replace('b"said\\n"', 'b""')
        self.assertTrue(look(unsaid.full, silent))

    def test_reports(self):
        """Lists that aren't all kept, and another status."""
        broken = KEEPS.replace("range(16)", "range(15)")
        late = KEEPS.replace("    sys.exit(141)", "    os.remove('lists/3')\n    sys.exit(141)")

        def look(text):
            """What is wrong with a program."""
            return all_of(unsaid.unread(["p"], self.programs(text)))

        self.each_caught(look, KEEPS, broken, late, KEEPS.replace("141", "1"))

    def test_words(self):
        """Another message, and another status."""
        text = "sys.stderr.write('p: no text\\n')\nsys.exit(2)\n"
        it = scenario(["p"], {}, message=b"p: no text\n", status=b"2\n")

        def look(text):
            """What is wrong with a program."""
            return all_of(unsaid.told(it, self.programs(text)))

        self.each_caught(look, text, *changed(text, ("no text", "text"), ("(2)", "(3)")))

    def test_names(self):
        """A grammar file that is replaced."""
        it = scenario(["p"], {"one.y": b"old"}, **{"left/same": b"old"})
        looks = unsaid.with_second_name, unsaid.has_second_name
        anew = "os.remove('same')\nopen('same', 'w').write('old')\n"

        def look(text):
            """What is wrong with a program."""
            return all_of(outputs.kept(it, self.programs(text), *looks))

        self.each_caught(look, "pass\n", anew, "open('same', 'w').write('new')\n")


class Strange(Hostile):
    """Hostile streams and files."""

    def test_streams(self):
        """A closed stream and a full device that aren't said."""
        quiet = "try:\n    os.write(1, b'x')\nexcept OSError:\n    sys.exit(3)\n"
        back = {"stdout": b"", "status": b"3\n"}
        it = scenario(["p"], {}, stdout=b"x")

        def closed(text):
            """What is wrong with a program whose output is closed."""
            return all_of(strange.closed(it, [1], back, self.programs(text)))

        def full(text):
            """What is wrong with a program whose output is full."""
            return all_of(strange.full(it, "stdout", back, self.programs(text)))

        wrong = quiet.replace("(3)", "(0)"), quiet.replace("    sys.exit(3)", "    raise")
        for look in (closed, full):
            self.each_caught(look, quiet, *wrong)

    def test_pipes(self):
        """A file that is a pipe, and one that has no end: no byte more is read than is needed."""
        text = "sys.stdout.write(open(sys.argv[1]).read())\n"
        it = scenario(["p", "in"], {"in": b"text"}, stdout=b"text")

        def look(program):
            """What is wrong with a program that reads a pipe."""
            return all_of(strange.through_a_pipe(it, "in", self.programs(program)))

        self.each_caught(look, text, text.replace("read()", "read(2)"))
        endless = scenario(["p", "endless"], {})
        read = "file = os.open(sys.argv[1], os.O_RDONLY)\nleft = 9000\nwhile left:\n"
        read += "    left -= len(os.read(file, left))\n"

        def look_at_end(program):
            """What is wrong with a program that reads a file without an end."""
            given = endless, "endless", b" " * 100, 9_000, self.programs(program)
            return all_of(strange.without_end(*given))

        self.each_caught(look_at_end, read, read.replace("9000", "9001"))

    def test_in_time(self):
        """A reply that comes too late, and one that is another."""
        late = SESSION.replace("os.write(1, ", "kept = globals().get('kept', b'') + (")
        late += "os.write(1, kept)\n"
        pairs = [("2 reduce 1", "2 reduce 0"), ("1 undo reduce", "1 undid reduce")]

        def look(text):
            """What is wrong with a session."""
            programs = self.programs(text, "ystep")
            soon = partial(strange.reply_of, seconds=0.5)
            with mock.patch.object(strange, "reply_of", soon):
                return all_of(strange.in_time(SHORT, programs, False))

        self.each_caught(look, SESSION, late, *changed(SESSION, *pairs))


class Whole(Hostile):
    """The sum of all hostile cases."""

    def test_errors(self):
        """A case that can't be looked at is a failure, and so is a library that isn't built."""
        def broken():
            """A case that ends with an error."""
            raise OSError("planted")

        self.assertTrue(all_of(run.results_of(broken)))
        with mock.patch.object(run, "library_in", side_effect=OSError("planted")):
            self.assertTrue(all_of(run.results_in(self.room, {})))
