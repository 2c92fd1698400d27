"""Sessions worked by hand: each command line with its reply."""
import re
from dataclasses import dataclass

from checks.scenarios.cases import scenario


def lines(*texts):
    """A text of some lines."""
    return "".join(f"{it}\n" for it in texts)


def steps(kinds, first=1):
    """The lines of some steps."""
    return [f"{position} {kind}" for position, kind in enumerate(kinds, first)]


def undone(kinds):
    """The lines of all undos of these steps, back to the start."""
    return [f"{position} undo {kind}" for position, kind in reversed(list(enumerate(kinds)))]


@dataclass
class Session:
    """Files and command lines, with what is replied."""

    grammar: str
    tokens: str
    # pairs of a command line and its reply
    replies: list

    def stdin(self):
        """All command lines."""
        return lines(*(line for line, _ in self.replies)).encode()

    def stdout(self):
        """All replies."""
        return "".join(reply for _, reply in self.replies).encode()

    def scenario(self):
        """The session as a scenario."""
        inputs = {"grammar.y": self.grammar.encode(), "tokens": self.tokens.encode()}
        words = ["ystep", "grammar.y", "tokens"]
        return scenario(words, inputs, self.stdin(), stdout=self.stdout())

    def replies_to(self, given):
        """The replies to the lines of an input whose newline came."""
        whole = given.count(b"\n")
        return "".join(reply for _, reply in self.replies[:whole]).encode()

    def replies_to_end(self, given):
        """The replies to an input that ends there, maybe within a line."""
        whole, tail = given.count(b"\n"), given.split(b"\n")[-1].decode()
        made = self.replies_to(given)
        return made + reply_to_beginning(tail, *self.replies[whole]).encode() if tail else made


def reply_to_beginning(tail, line, reply):
    """The reply to a line that was cut off: a command only where it still has a number."""
    if tail == line:
        return reply
    counted = re.fullmatch(r"(run|back) ([1-9]\d*)", tail)
    return lines(*reply.splitlines()[: int(counted[2])]) if counted else "unknown command\n"


LIST = "%token NUM\n%%\nlist : | list NUM ';' | list error ';' ;\n"
LIST_STEPS = ["reduce 1", "shift NUM", "detect", "pop NUM", "shift error", "discard NUM"]
LIST_STEPS += ["shift ';'", "reduce 3", "shift NUM", "shift ';'", "reduce 2", "accept"]
SUMS = "%token NUM\n%left '+'\n%left '*'\n%%\ne : e '+' e | e '*' e | NUM ;\n"
SUM_STEPS = ["shift NUM", "reduce 3", "shift '+'", "shift NUM", "reduce 3", "shift '*'"]
SUM_STEPS += ["shift NUM", "reduce 3", "reduce 2", "reduce 1", "accept"]
SUM_FORMS = ["e", "e '+' e", "e '+' e '*' e", "e '+' e '*' NUM", "e '+' NUM '*' NUM"]
SUM_FORMS += ["NUM '+' NUM '*' NUM"]
FIRST = ["0 running", "stack:", "rest: NUM NUM ';' NUM ';'", "counter: 0", "errors: 0"]

SESSIONS = [
    Session(
        LIST,
        "NUM NUM ';' NUM ';'\n",
        [
            ("run 20", lines(*steps(LIST_STEPS))),
            ("tree", lines("(2 (3 (1) error ';'@3) NUM@4 ';'@5)")),
            ("unwind", lines("had error")),
            ("frob", lines("unknown command")),
            ("back 12", lines(*undone(LIST_STEPS))),
            ("show", lines(*FIRST)),
        ],
    ),
    Session(
        SUMS,
        "NUM '+' NUM '*' NUM\n",
        [
            ("run 20", lines(*steps(SUM_STEPS))),
            ("tree", lines("(1 (3 NUM@1) '+'@2 (2 (3 NUM@3) '*'@4 (3 NUM@5)))")),
            ("unwind", lines(*SUM_FORMS)),
        ],
    ),
]
SHORT = Session(
    "%%\ns : 'x' ;\n",
    "'x'\n",
    [
        ("run 9", lines("1 shift 'x'", "2 reduce 1", "3 accept")),
        ("back 9", lines("2 undo accept", "1 undo reduce 1", "0 undo shift 'x'")),
        ("show", lines("0 running", "stack:", "rest: 'x'", "counter: 0", "errors: 0")),
    ],
)
# The second error comes before three tokens are shifted after the first, and isn't reported.
ERROR_STEPS = [*LIST_STEPS[:9], "detect", "pop NUM", "shift error", "discard NUM", "shift ';'"]
ERROR_STEPS += ["reduce 3", "accept"]
ERRORS = Session(
    LIST,
    "NUM NUM ';' NUM NUM ';'\n",
    [
        ("run 20", lines(*steps(ERROR_STEPS))),
        ("back 16", lines(*undone(ERROR_STEPS))),
        ("show", lines(FIRST[0], FIRST[1], "rest: NUM NUM ';' NUM NUM ';'", *FIRST[3:])),
    ],
)
EDITED = Session(
    SHORT.grammar,
    "'x' 'x'\n",
    [
        ("step", lines("1 shift 'x'")),
        ("drop", lines("2 drop 'x'")),
        ("drop", lines("no token")),
        ("insert s", lines("bad token")),
        ("run 9", lines("3 reduce 1", "4 accept")),
        ("drop", lines("halted")),
        ("tree", lines("(1 'x'@1)")),
        ("back 3", lines("3 undo accept", "2 undo reduce 1", "1 undo drop 'x'")),
        ("show", lines("1 running", "stack: 'x'", "rest: 'x'", "counter: 0", "errors: 0")),
        ("back 3", lines("0 undo shift 'x'")),
    ],
)
