"""`ydebug` in the module, run by node: on its scenarios, and beside the program on grammars with
tokens and command lines at random."""
import random
import tempfile
from base64 import b64decode, b64encode
from collections import Counter
from dataclasses import dataclass
from pathlib import Path

from checks.debugger.babble import lines_of
from checks.playground.module import Node
from checks.scenarios.folders import Fault, found_below, read, summed
from checks.scenarios.pages import scenarios_of
from checks.shared.differences import differences
from checks.shared.grammars import grammar_of, text_of, tokens_of
from checks.shared.places import DATA, PAGES, ROOTS
from checks.shared.running import ran

ANSWERS = DATA / "playground/ydebug.js"
PARTS = "words", "files", "input"
# The status where words or files aren't laid out as they are to be.
UNREADABLE = 125
# What is asked of each grammar at random; the last is a session.
FORMS = {
    "conflicts": ["conflicts", "grammar.y"],
    "check": ["check", "grammar.y", "tokens", "-"],
    "errors": ["errors", "grammar.y"],
    "session": ["grammar.y", "tokens"],
}


@dataclass
class Run:
    """What a run came to."""

    status: int
    out: bytes
    errors: bytes

    def parts(self):
        """Its parts by the names that scenarios give them."""
        status = b"%d\n" % self.status
        return {"stdout": self.out, "message": self.errors, "status": status}


def words_as_bytes(words):
    """Words as the call takes them: each with a NUL byte behind it."""
    return b"".join(it.encode(errors="surrogateescape") + b"\0" for it in words)


def files_as_bytes(files):
    """Files as the call takes them: a name, a NUL byte, a length, a NUL byte, and the bytes."""
    named = ((name.encode(errors="surrogateescape"), text) for name, text in files.items())
    return b"".join(b"%b\0%d\0%b" % (name, len(text), text) for name, text in named)


class Ydebug:
    """`ydebug` in a module, by what answers a request of three texts in base64."""

    def __init__(self, say):
        self.say = say

    def call(self, words, files, given):
        """What comes of the bytes that the call is given."""
        answer = self.say([b64encode(it).decode() for it in (words, files, given)])
        if "broken" in answer:
            raise Fault(answer["broken"])
        return Run(answer["status"], *(b64decode(answer[it]) for it in ("out", "errors")))

    def run(self, words, files, given):
        """What comes of words after the name of the program, of files and of standard input."""
        return self.call(words_as_bytes(words), files_as_bytes(files), given)


def left_of(scenario):
    """The files that a scenario leaves."""
    found = ((path, text) for path, text in scenario.wanted.items() if path.startswith("left/"))
    return {path.removeprefix("left/"): text for path, text in found}


def reason_against(scenario):
    """Why a scenario can't be run over files in memory; none where it can."""
    if left_of(scenario) != scenario.inputs or "--update" in scenario.words:
        return "it writes files"
    if scenario.links:
        return "it has links"
    if scenario.streams or scenario.environment:
        return "a stream of it is a device"
    if any(it.startswith("/") for it in scenario.words):
        return "it names a device"
    if any(it.startswith("./") for it in scenario.words):
        return "it names a file by another path"
    return None


def stored():
    """The scenarios of `ydebug`."""
    below = (read(it, root, False) for root in ROOTS for it in found_below(root))
    told = (it for page in PAGES for it in scenarios_of(page))
    return [it for some in (below, told) for it in some if it.words[:1] == ["ydebug"]]


def wrong_scenario(module, scenario):
    """What is wrong with what comes back of a scenario."""
    wanted = {it: text for it, text in scenario.wanted.items() if not it.startswith("left/")}
    try:
        made = module.run(scenario.words[1:], scenario.inputs, scenario.stdin)
    except Fault as fault:
        return [f"{fault}\n"]
    return list(differences(wanted, summed(made.parts(), wanted)))


def compare_scenarios(module, scenarios, tally):
    """The scenarios that can be run so; the reasons against the others are counted."""
    reasons = Counter()
    for it in scenarios:
        reason = reason_against(it)
        reasons[reason] += 1
        if not reason:
            tally.take(f"ydebug in the module: {it.folder}", wrong_scenario(module, it))
    for reason, count in sorted((it for it in reasons.items() if it[0])):
        print(f"{count} scenarios of ydebug are left out: {reason}", flush=True)


def compare_refused(module, tally):
    """Words and files that aren't laid out as they are to be."""
    words, files = b"check\0a\0b\0", b"a\0003\0xyz"
    wrong = [(words[:-1], files), (words, files[:-1]), (words, files + b"b"), (words, b"a\0\0"),
             (words, b"a\0+3\0xyz"), (words, b"a\0x\0"), (words, b"a"), (words, b"a\0009\0xyz")]
    for pair in wrong:
        made = module.call(*pair, b"")
        tally.hold(f"{pair} is refused", made == Run(UNREADABLE, b"", b""), made)


def wrong_run(module, program, folder, words, given):
    """What is otherwise than the program has it, in a run over the files of a folder."""
    files = {it.name: it.read_bytes() for it in folder.iterdir()}
    made = ran([program, *words], folder, given)
    wanted = Run(made.returncode, made.stdout, made.stderr)
    found = module.run(words, files, given)
    return list(differences(wanted.parts(), found.parts()))


def commands_of(program, folder, grammar, rng):
    """Command lines at random that write no file."""
    lines = lines_of(program, folder, grammar, rng) or ["where"]
    return "".join(f"{it}\n" for it in lines if not it.startswith("sa")).encode()


def wrong_grammar(module, program, folder, rng):
    """What is wrong on one grammar, with tokens, an input and command lines at random."""
    grammar = grammar_of(rng)
    (folder / "grammar.y").write_text(grammar.text)
    (folder / "tokens").write_text(text_of(grammar, tokens_of(grammar, rng)))
    given = dict.fromkeys(FORMS, text_of(grammar, tokens_of(grammar, rng)).encode())
    given["session"] = commands_of(program, folder, grammar, rng)
    return [line for form, words in FORMS.items()
            for line in wrong_run(module, program, folder, words, given[form])]


def compare_drawn(module, program, count, tally, seed=1):
    """Grammars at random, up to the first that is wrong."""
    rng = random.Random(seed)
    with tempfile.TemporaryDirectory() as room:
        for number in range(count):
            lines = wrong_grammar(module, program, Path(room), rng)
            tally.take(f"ydebug in the module: grammar {number}", lines)
            if lines:
                return


def compare_forms(path, program, count, tally):
    """`ydebug` in a module, by node."""
    with Node(ANSWERS, path) as node:
        module = Ydebug(lambda texts: node.say(dict(zip(PARTS, texts))))
        compare_refused(module, tally)
        compare_scenarios(module, stored(), tally)
        if program:
            compare_drawn(module, program, count, tally)
        else:
            print("skipped: there is no ydebug", flush=True)
