"""Compares `ydebug` over texts with a lexer in Python, on random grammars, SPECs and texts.

    texts [ydebug=PATH] [--seconds N] [--turns N] [--seed N]

`ydebug check --lex` must say of each text what the SPEC, cut by `re`, and a plain machine say, byte
for byte; `ydebug tokens` must write these tokens. Spoiled SPECs and texts must be refused by name,
or judged. A session over each text must go on to its end. The texts that `ydebug sentences` and
`ydebug errors` write must be cut into the tokens for which they stand, and a listing of errors must
be a file of messages. The first fault ends the run: its files stay in a folder that is named. The
last line is `N passed, M failed`: grammars.
"""
import random
import re
import shutil
import tempfile
from collections import Counter
from functools import partial
from pathlib import Path

from checks.comparers import written
from checks.comparers.errors import MOST_REDUCTIONS, Machine
from checks.shared import running
from checks.shared.arguments import asked
from checks.shared.grammars import END, ERROR, productive, tokens_of
from checks.shared.machine import Session
from checks.shared.tables import Tables
from checks.shared.tally import Tally

# How a token may look, and texts that look so.
LOOKS = {
    "[0-9]+": ["0", "42", "2026"],
    r"[0-9]+(\.[0-9]+)?": ["1", "3.14"],
    "[a-z]+": ["a", "abc", "num", "id"],
    "[A-Za-z_][A-Za-z_0-9]*": ["NUM", "x1", "_"],
    "x|xy": ["x", "xy"],
    r'"[^"\n]*"': ['""', '"a b"'],
    "<=?": ["<", "<="],
    r"\+\+": ["++"],
    "(ab)+c?": ["ab", "ababc"],
    "<=": ["<="],
    "num": ["num"],
    r'"\\': ['"\\'],
    "[-]>": ["->"],
}
# Those that match one text alone.
PLAIN = {r"\+\+": "++", "<=": "<=", "num": "num", r'"\\': '"\\', "[-]>": "->"}
SKIPS = [r"[ \t\n]+", r"#[^\n]*", "~", r"[ \n]"]
BLANKS = [" ", "\n", "  ", "\t", "\n\n"]
# What only some SPECs, and what none pass over.
OTHERS = {"#x\n": SKIPS[1], "~": SKIPS[2]}
JUNK = ["!", "\u00e9", "\x01", "@@", "\\", "'", "#x\n", "~"]
SESSION = "where\nrun until error\nupcoming\ninsert NUM\nback 3\nwhere\nreload\nrun\nupcoming\n"
# What may be said of a SPEC or a text that was spoiled.
NAMED = re.compile(
    r"grammar\.y:\d+:\d+: error: \S+: no line of spec gives this token; write one, or name it after %none"
    r"|spec:\d+:\d+: error: (the expression doesn't compile: .+|the expression matches the empty text"
    r"|nothing stands after the name|this line is no text in UTF-8"
    r"|no token of the grammar has this name"
    r"|an input has tokens alone, and neither error nor \$end"
    r"|after --upper the words stand in small letters"
    r"|no directive of a SPEC; there are %skip, %keywords and %none|this is a grammar, no SPEC)"
    r"|text:\d+:\d+: error: (no line of the SPEC matches here: .+|unexpected (\S+|\".+\"|end of (input|line)|(\S+ )?'.+')[,;] .+)"
    r"|text: (accepted after \d+ steps|error: undecided after 1,000,000 steps)"
)


class Spec:
    """What a SPEC says: expressions, words, and tokens that no text has."""

    def __init__(self, grammar, rng):
        self.grammar, self.lines = grammar, []
        self.rules, self.words, self.absent, self.small = [], [], set(), {}
        self.texts = []
        used = {it for rule in grammar.rules for it in rule.body} - {END, ERROR}
        self.skip(SKIPS[0])
        for token in sorted(used):
            if token < grammar.tokens and not grammar.names[token].startswith("'"):
                self.give(token, rng)
        for _ in range(rng.randint(0, 2)):
            self.skip(rng.choice(SKIPS))
        rng.shuffle(self.lines)
        self.lines.sort(key=lambda it: it[0])
        self.rules = [it[2] for it in self.lines if it[2]]

    def skip(self, look):
        """A line of what is passed over."""
        self.lines.append((0, f"%skip {look}", (None, re.compile(look.encode()))))

    def give(self, token, rng):
        """A line that gives a token."""
        name, way = self.grammar.names[token], rng.random()
        if way < 0.2:
            folded = rng.random() < 0.5
            self.words.append((token, name.encode(), folded))
            self.texts += [name, name.lower()]
            self.lines.append((1, f"%keywords {'-i ' * folded}{name}", None))
        elif way < 0.3 and name == name.upper():
            self.words.append((token, name.lower().encode(), False))
            self.small[token] = name.lower()
            self.texts += [name.lower()]
            self.lines.append((1, f"%keywords --upper {name.lower()}", None))
        elif way < 0.35:
            self.absent.add(token)
            self.lines.append((2, f"%none {name}", None))
        else:
            for look in rng.sample([*LOOKS], rng.choice([1, 1, 1, 2])):
                self.texts += LOOKS[look]
                self.lines.append((3, f"{name}  {look}", (token, re.compile(look.encode()))))

    def text(self):
        """The text of the SPEC."""
        return "".join(f"{line}\n" for _, line, _ in self.lines)

    def fixed(self, text, at):
        """The longest literal or word at a place: how long it is, and its token."""
        literals = ((it, name[1:-1].encode(), False) for it, name in self.literals())
        for token, word, folded in [*literals, *self.words]:
            piece = text[at : at + len(word)]
            if piece == word or folded and piece.lower() == word.lower():
                yield len(word), token

    def literals(self):
        """The literals of the grammar."""
        names = enumerate(self.grammar.names[: self.grammar.tokens])
        return ((at, name) for at, name in names if name.startswith("'"))

    def longest(self, text, at):
        """The longest match at a place, the first of equal ones."""
        best = 0, None
        rest = text[at:]
        matches = ((rule.match(rest), token) for token, rule in self.rules)
        found = [*self.fixed(text, at), *((it.end(), token) for it, token in matches if it)]
        for length, token in found:
            best = (length, token) if length > best[0] else best
        return best

    def word_at(self, text, at):
        """The word that begins at a place."""
        return text[at : at + self.longest(text, at)[0]].decode()

    def cut(self, text):
        """The tokens of a text with their places, and where the last one ends; or where nothing
        matches."""
        tokens, at, end = [], 0, 0
        while at < len(text):
            length, token = self.longest(text, at)
            if not length:
                return None, at
            if token is not None:
                tokens.append((token, at))
                end = at + length
            at += length
        return tokens, end

    def called(self, token):
        """What people are told of a token: the text that it always is, or its name, unless that says
        little."""
        texts = [PLAIN.get(rule.pattern.decode()) for it, rule in self.rules if it == token]
        texts = [self.small[token]] if token in self.small else texts
        if not texts or None in texts or self.cut(texts[0].encode()) != ([(token, 0)], len(texts[0])):
            name = self.grammar.names[token]
            return {"$end": "end of input", r"'\012'": "end of line"}.get(name, name)
        shown = texts[0].replace("\\", r"\\").replace('"', r'\"')
        return f'"{shown}"'


def met(spec, token, word):
    """What people are told of a token that is this word of a text: what it is called, and the word,
    unless that says no more."""
    name, called = spec.grammar.names[token], spec.called(token)
    if not word or name.startswith("'") or called == f'"{word}"':
        return called
    shown = "".join(it if " " <= it <= "~" else f"\\x{ord(it):02x}" for it in word[:40])
    shown = f"'{shown}{'..' * (len(word) > 40)}'"
    return shown if called == name and word.lower() == name.lower() else f"{called} {shown}"


def text_of(spec, tokens, rng):
    """A text, mostly of the looks of tokens."""
    skips = [line.partition(" ")[2] for _, line, _ in spec.lines]
    blanks = BLANKS + [it for it, skip in OTHERS.items() if skip in skips]
    literals = [name[1:-1] for _, name in spec.literals()]
    looks = [*spec.texts, *literals] or ["a"]
    some = [rng.choice(looks) for _ in range(rng.randint(0, 12))]
    if rng.random() < 0.7:
        some = [look_of(spec, token, rng) for token in tokens]
    some = [it + rng.choice(blanks) for it in some]
    if rng.random() < 0.2:
        some.insert(rng.randint(0, len(some)), rng.choice(JUNK))
    return "".join(some).encode()


def look_of(spec, token, rng):
    """A text of a token."""
    name = spec.grammar.names[token]
    lines = [line for _, line, _ in spec.lines]
    looks = [some for look, some in LOOKS.items() if f"{name}  {look}" in lines]
    return name.strip("'") if name.startswith("'") or not looks else rng.choice(looks[0])


def spot(text, at):
    """The line and column of a place."""
    return text.count(b"\n", 0, at) + 1, at - text.rfind(b"\n", 0, at)


def shown_line(text, at):
    """The line of a place, with a mark under it."""
    start = text.rfind(b"\n", 0, at) + 1
    line, before = text[start:].split(b"\n")[0].decode(), text[start:at].decode()
    plain = "".join(it if it.isprintable() or it == "\t" else " " for it in line)
    blank = "".join(it if it == "\t" else " " for it in before)
    return f"    {plain}\n    {blank}^\n" if line else ""


def shown_bytes(rest):
    """The bytes at a place, for people."""
    line = rest[:1] + rest[1:].split(b"\n")[0]
    shown = (chr(it) if 32 <= it <= 126 else f"\\x{it:02x}" for it in line[:8])
    return "".join(shown) + (".." if len(line) > 8 else "")


def parsed(tables, tokens):
    """How many tokens are shifted before the parse ends or an error is detected, how many steps
    that takes, and whether it ends well; none where it takes too many."""
    session = Session(tables, tokens)
    for steps in range(1, 3_000):
        words, made = session.next()
        if words == "detect":
            return len(tokens) - len(session.now.rest), steps, False
        session.history.append((words, made))
        if words == "accept":
            return len(tokens), steps, True
    return None


def can_come(tables, tokens, token):
    """Whether a token can come after others; none where that takes too long to say."""
    ended = parsed(tables, tokens + [token] * (token != END))
    return ended and (ended[2] or token != END and ended[0] > len(tokens))


def expected(tables, spec, tokens):
    """What could come in place of what came; none where that takes too long to say."""
    every = [it for it in range(tables.grammar.tokens) if it != ERROR]
    can = [can_come(tables, tokens, it) for it in every]
    if None in can:
        return None
    names = [spec.called(it) for it, yes in zip(every, can) if yes]
    if not names:
        return "; no token can come"
    if len(names) > 20:
        return f", expected {', '.join(names[:20])}, .."
    return f", expected {' or '.join(filter(None, [', '.join(names[:-1]), names[-1]]))}"


def usual_rule(tables, state, token):
    """The rule by which a state reduces by default in a parser of bison's, where a token that can't
    come is no error of `%nonassoc`."""
    cells = tables.cells[state]
    counts = Counter(it[1] for it in cells.values() if it[0] == "r")
    if (state, token) in tables.gotos or cells.get(ERROR, ("",))[0] == "s" or not counts:
        return None
    return min(counts, key=lambda rule: (-counts[rule], rule))


def late(tables, symbols, ahead):
    """The line that says where such a parser detects an error, where that is another state."""
    machine, stack, rules = Machine(tables), (), []
    for token in symbols:
        stack = machine.move(stack, token)[1]
    stack = machine.move(stack, ahead)[1]
    for _ in range(MOST_REDUCTIONS):
        state = stack[-1] if stack else 0
        action = tables.action(state, ahead)
        rule = action[1] if action and action[0] == "r" else None
        rule = usual_rule(tables, state, ahead) if action is None else rule
        if rule is None:
            break
        body, left = tables.grammar.rules[rule].body, tables.grammar.rules[rule].left
        stack = stack[: len(stack) - len(body)]
        stack = (*stack, tables.gotos[stack[-1] if stack else 0, left])
        rules.append(rule)
    if not rules or rule is not None:
        return ""
    named = ", ".join(map(str, rules[:20])) + ", .." * (len(rules) > 20)
    what = f"detects this in state {state}, after reducing by rule{'s' * (len(rules) > 1)} {named}"
    return f"  a parser with default reductions (lr.default-reduction most) {what}\n"


def answer(tables, spec, text):
    """What is said of a text; none where that takes too long to say."""
    tokens, end = spec.cut(text)
    if tokens is None:
        line, column = spot(text, end)
        what = f"no line of the SPEC matches here: {shown_bytes(text[end:])}"
        return f"text:{line}:{column}: error: {what}\n" + shown_line(text, end)
    symbols = [it for it, _ in tokens]
    ended = parsed(tables, symbols)
    if not ended:
        return None
    taken, steps, good = ended
    if good:
        return f"text: accepted after {steps} steps\n"
    wanted = expected(tables, spec, symbols[:taken])
    ahead, at = tokens[taken] if taken < len(tokens) else (END, end)
    line, column = spot(text, at)
    word = spec.word_at(text, at) if taken < len(tokens) else ""
    called = met(spec, ahead, word)
    said = f"text:{line}:{column}: error: unexpected {called}{wanted}\n" + shown_line(text, at)
    return said + late(tables, symbols[:taken], ahead) if wanted else None


def run(folder, *words, given=b""):
    """The status and both streams of a run."""
    ran = running.ran(words, folder, given)
    return ran.returncode, ran.stdout.decode(), ran.stderr.decode()


def fault_of_text(folder, ydebug, tables, spec, counts):
    """What is wrong with what is said of a text; nothing where all is well."""
    text = (folder / "text").read_bytes()
    wanted = answer(tables, spec, text)
    if wanted is None:
        counts["endless parses"] += 1
        return None
    status, out, message = run(folder, ydebug, "check", "grammar.y", "--lex", "spec", "text")
    if message or wanted != out or status != (": accepted " not in out):
        return f"check: {status} {message}{out} and not {wanted}"
    counts["texts"] += 1
    counts["good ones"] += ": accepted " in out
    tokens, _ = spec.cut(text)
    if tokens is None:
        return None
    status, out, message = run(folder, ydebug, "tokens", "grammar.y", "--lex", "spec", "text")
    names = [tables.grammar.names[it] for it, _ in tokens]
    if status or message or out.split() != names:
        return f"tokens: {status} {message}{out}"
    words = ("grammar.y", "--lex", "spec", "text")
    status, out, message = run(folder, ydebug, *words, given=SESSION.encode())
    return f"session: {status} {message}" if status or message else None


def spoiled(bytes_, rng):
    """Some bytes, cut off or with one changed."""
    if not bytes_ or rng.random() < 0.4:
        return bytes_[: rng.randint(0, len(bytes_))]
    at = rng.randrange(len(bytes_))
    piece = rng.choice([b"", b"(", b"[", b"\\", b"\xff", b"%", b"*", b"\n", b"{9999}", b"'", b"|"])
    return bytes_[:at] + piece + bytes_[at + rng.randint(0, 1) :]


def fault_of_spoiled(folder, ydebug, rng, counts):
    """What is wrong with what is said of spoiled files; nothing where each is refused by name."""
    for name in "spec", "text":
        path = folder / name
        if rng.random() < 0.7:
            path.write_bytes(spoiled(path.read_bytes(), rng))
    status, out, message = run(folder, ydebug, "check", "grammar.y", "--lex", "spec", "text")
    said = (out or message).splitlines()[:1]
    counts["spoiled"] += 1
    counts["refused SPECs"] += bool(message)
    if status not in (0, 1, 4) or out and message or not said or not NAMED.fullmatch(said[0]):
        return f"spoiled: {status} {message}{out}"
    return None


def fault_in(folder, ydebug, rng, counts):
    """What is wrong with what is said of a grammar, a SPEC and some texts."""
    grammar = productive(rng)
    (folder / "grammar.y").write_text(grammar.text)
    spec, tables = Spec(grammar, rng), Tables(grammar)
    (folder / "spec").write_text(spec.text())
    counts["SPECs"] += 1
    for _ in range(3):
        (folder / "text").write_bytes(text_of(spec, tokens_of(grammar, rng), rng))
        fault = fault_of_text(folder, ydebug, tables, spec, counts)
        if fault:
            return fault
    parse = partial(parsed, tables)
    fault = written.fault_of_written(folder, ydebug, spec, parse, counts)
    if fault:
        return fault
    return fault_of_spoiled(folder, ydebug, rng, counts)


def compared(ydebug, folder, given):
    """Compares texts for some seconds, up to the first fault: the tally, and the counts."""
    rng, counts, tally = random.Random(given.seed), Counter(), Tally()
    for turn in running.turns(given):
        fault = fault_in(folder, ydebug, rng, counts)
        tally.take(f"grammar {turn}", [f"its files are in {folder}: {fault}\n"] if fault else [])
        if fault:
            break
    return tally, counts


def main(words):
    """Compares texts and tokens."""
    given, folder = asked(__doc__, words, ("ydebug",), seconds=60.0, turns=0, seed=1), Path(
        tempfile.mkdtemp()
    )
    tally, counts = compared(given.programs["ydebug"], folder, given)
    if not tally.failed:
        shutil.rmtree(folder)
    print(", ".join(f"{number} {what}" for what, number in counts.items()))
    return tally.end()
