"""What stands for the real things in tests: programs, grammars, runs."""
import contextlib
import io
import subprocess
import sys
import tempfile
import unittest
from pathlib import Path

from checks.shared.grammars import Grammar, Rule
from checks.shared.reader import File, lexemes_of
from checks.shared.spelling import spelled
from checks.shared.tally import Tally

# A program that is begun quickly: it imports nothing of its own accord.
HEAD = f"#!{sys.executable} -IS\nimport os, sys\n"


def program(room, name, text):
    """A program in a folder, of some lines of Python, and its path."""
    file = Path(room) / name
    file.write_text(HEAD + text)
    file.chmod(0o755)
    return str(file)


def ended(out="", message="", status=0):
    """What a run comes to."""
    return subprocess.CompletedProcess([], status, out, message)


def grammar_in(text):
    """The grammar of a file without precedences, whose tokens are declared or literals."""
    file = File(lexemes_of(text))
    used = [it for rule in file.rules for it in rule.symbols() if isinstance(it, int)]
    tokens = list(dict.fromkeys([*file.listed, *used]))
    lefts = list(dict.fromkeys(left for left, _ in file.lefts))
    names = ["$end", "error", *map(spelled, tokens), "$accept", *map(spelled, lefts)]
    at = {name: index for index, name in enumerate(names)}
    rules = [Rule(at["$accept"], [at[spelled(lefts[0])], 0], None)]
    for rule in file.rules:
        body = [at[spelled(it)] for it in rule.symbols()]
        giver = next((it for it in reversed(body) if it < 2 + len(tokens)), None)
        rules.append(Rule(at[spelled(rule.left)], body, None, giver))
    values = [it if isinstance(it, int) else 257 + tokens.index(it) for it in tokens]
    numbers = {0: 0, 1: 256} | dict(enumerate(values, 2))
    return Grammar(text.decode(), names, 2 + len(tokens), numbers, rules, {})


class Planted(unittest.TestCase):
    """A test that gives a checker right and wrong answers, in a folder of its own."""

    def setUp(self):
        """Makes the folder."""
        holder = tempfile.TemporaryDirectory()
        self.addCleanup(holder.cleanup)
        self.room = Path(holder.name)

    def program(self, name, text):
        """A program in the folder, and its path."""
        return program(self.room, name, text)

    def counted(self, check, *given):
        """How much passed and failed in a check that counts by a tally, its last argument."""
        tally = Tally()
        with contextlib.redirect_stdout(io.StringIO()):
            check(*given, tally)
        return tally.passed, tally.failed

    def said(self, main, *words):
        """The status of a command, and what it writes."""
        out = io.StringIO()
        with contextlib.redirect_stdout(out):
            status = main(list(words))
        return status, out.getvalue()

    def each_caught(self, look, right, *wrong):
        """A right answer has nothing wrong, and each of the wrong ones has something."""
        self.assertFalse(look(right), "the right answer")
        for answer in wrong:
            with self.subTest(answer=str(answer)[:200]):
                self.assertNotEqual(answer, right)
                self.assertTrue(look(answer))


def changed(text, *pairs):
    """A text once for each pair, in which the first part, which is there, is the second."""
    for before, after in pairs:
        if before not in text:
            raise ValueError(f"{before!r} isn't there")
        yield text.replace(before, after, 1)
