"""Says what both programs must answer to grammar files, by a reader that shares nothing with them.

    reader FILE..

It is written from docs/FORMATS.md alone, and says of each file `accepted`, or its fault, as
`G7 at line 3`. So where the programs answer otherwise, they or that page are wrong.
"""
import re
from collections import namedtuple
from pathlib import Path

FILE_LIMIT = 1_048_576
SYMBOL_LIMIT, RULE_LIMIT, BODY_LIMIT = 4_096, 8_192, 255
GREATEST_NUMBER, NUMBER_OF_ERROR = 32_767, 256

ERROR = b"error"
LEVELS = ("LEFT", "RIGHT", "NONASSOC")
LISTS = ("TOKEN", *LEVELS)
WORDS = {f"%{it.lower()}".encode(): it for it in (*LISTS, "TYPE", "START", "UNION", "PREC")}

COMMENT = rb"/\*[^*]*\*+(?:[^*/][^*]*\*+)*/"
GAP = re.compile(rb"(?:[ \t\n\r\f]|%b)*" % COMMENT)
NAME = re.compile(rb"[A-Za-z._][A-Za-z0-9._]*")
NUMBER = re.compile(rb"[0-9]+")
WORD = re.compile(rb"%[A-Za-z0-9._]+")
CODE = re.compile(rb"%\{.*?%\}", re.DOTALL)
LITERAL = re.compile(
    rb"'(?:([ -&(-\[\]-~])|\\(['\"?\\abfnrtv])|\\([0-7]{1,3})|\\x([0-9A-Fa-f]+))'"
)
ESCAPES = dict(zip(b"'\"?\\abfnrtv", b"'\"?\\\a\b\f\n\r\t\v"))
# What stands in a kept text: what hides braces, a brace, or other bytes.
PIECE = re.compile(
    rb"""%b|//[^\n]*|"(?:[^"\\]|\\.)*"|'(?:[^'\\]|\\.)*'|[{}]|[^"'/{}]+|/(?![*/])""" % COMMENT,
    re.DOTALL,
)


def identifier(state):
    """Where a name or a literal leads."""
    return {"NAME": state, "LITERAL": state}


DECLARATION = {"START": "start", "UNION": "union", "CODE": "declared", "TYPE": "type"}
DECLARATION |= {**dict.fromkeys(LISTS, "list"), "MARK": "rules"}
ENDED = {"C_IDENTIFIER": "body", "|": "body", "MARK": "done"}
# The syntax: what each terminal leads to from each state. A state is named by what stands before.
SYNTAX = {
    "declared": DECLARATION,
    "start": identifier("declared"),
    "union": {"ACT": "declared"},
    "list": {"<": "tag", **identifier("listed")},
    "tag": {"NAME": "tag name"},
    "tag name": {">": "tag end"},
    "tag end": identifier("listed"),
    "listed": {**DECLARATION, **identifier("listed"), "NUMBER": "numbered"},
    "numbered": {**DECLARATION, **identifier("listed")},
    "type": {"<": "type tag"},
    "type tag": {"NAME": "type tag name"},
    "type tag name": {">": "type tag end"},
    "type tag end": {"NAME": "typed"},
    "typed": {**DECLARATION, "NAME": "typed"},
    "rules": {"C_IDENTIFIER": "body"},
    "body": {**ENDED, **identifier("body"), "ACT": "body", "PREC": "prec", ";": "semicolon"},
    "prec": identifier("prec name"),
    "prec name": {**ENDED, "ACT": "semicolon", ";": "semicolon"},
    "semicolon": {**ENDED, ";": "semicolon"},
}
LAST = ("body", "prec name", "semicolon", "done")

# A terminal of the syntax, what it says, where it stands, and the state that it leads to.
Lexeme = namedtuple("Lexeme", "kind said at state")


class Fault(Exception):
    """A code, and the place in the file where the fault stands."""

    def __init__(self, code, at):
        super().__init__(code)
        self.code, self.at = code, at


# The text


def value_of(spelling):
    """The value of a literal, or none where this is no literal."""
    found = LITERAL.fullmatch(spelling)
    if not found:
        return None
    plain, escape, octal, hexadecimal = found.groups()
    if plain or escape:
        return ord(plain) if plain else ESCAPES[ord(escape)]
    value = int(octal, 8) if octal else int(hexadecimal, 16)
    return value if 1 <= value <= 255 else None


def literal_at(text, at):
    """The literal at a place."""
    found = LITERAL.match(text, at)
    value = value_of(found[0]) if found else None
    if value is not None:
        return "LITERAL", value, found.end()
    # What can still become a literal becomes one by a quote, or by a digit and a quote.
    unfinished = any(value_of(text[at:] + more) is not None for more in (b"'", b"1'"))
    raise Fault("G2" if unfinished else "G3", at)


def kept_at(text, at):
    """The kept text at a place."""
    depth, end = 0, at
    while found := PIECE.match(text, end):
        depth, end = depth + (found[0] == b"{") - (found[0] == b"}"), found.end()
        if depth == 0:
            return "ACT", None, end
    raise Fault("G2", at)


def percent_at(text, at):
    """What begins with a percent sign at a place."""
    if text.startswith(b"%%", at):
        return "MARK", None, at + 2
    if text.startswith(b"%{", at):
        found = CODE.match(text, at)
        if not found:
            raise Fault("G2", at)
        return "CODE", None, found.end()
    found = WORD.match(text, at)
    if not found or found[0] not in WORDS:
        raise Fault("G4", at)
    return WORDS[found[0]], None, found.end()


def name_at(text, at):
    """A name, or with the colon after it the left side of a rule."""
    found = NAME.match(text, at)
    colon = GAP.match(text, found.end()).end()
    if text.startswith(b":", colon):
        return "C_IDENTIFIER", found[0], colon + 1
    return "NAME", found[0], found.end()


def number_of(digits):
    """A number, or the next one above all that may be given where it is greater."""
    digits = digits.lstrip(b"0")
    return int(digits or b"0") if len(digits) < 6 else GREATEST_NUMBER + 1


def lexeme_at(text, at):
    """The terminal at a place, what it says, and where it ends."""
    if NAME.match(text, at):
        return name_at(text, at)
    if found := NUMBER.match(text, at):
        return "NUMBER", number_of(found[0]), found.end()
    first = text[at : at + 1]
    if first in b"<>|;":
        return first.decode(), None, at + 1
    for begins, reads in (b"'", literal_at), (b"{", kept_at), (b"%", percent_at):
        if first == begins:
            return reads(text, at)
    raise Fault("G2" if text.startswith(b"/*", at) else "G4", at)


def lexemes_of(text):
    """The lexemes up to the second mark, or to the end, as long as they begin a grammar file."""
    state, end = "declared", 0
    while state != "done":
        at = GAP.match(text, end).end()
        if at == len(text):
            break
        kind, said, end = lexeme_at(text, at)
        if kind not in SYNTAX[state]:
            raise Fault("G5", at)
        state = SYNTAX[state][kind]
        yield Lexeme(kind, said, at, state)
    if state not in LAST:
        raise Fault("G5", len(text))


# What it means. A symbol is its name, or the value of a literal.


class Rule:
    """A left side, and the parts of a body, none in place of an action."""

    def __init__(self, left):
        self.left, self.parts, self.has_action_after_prec = left, [], False

    def symbols(self):
        """The parts that are symbols."""
        return [it for it in self.parts if it is not None]

    def inner_actions(self):
        """Actions except the final one."""
        is_final = self.parts[-1:] == [None] and not self.has_action_after_prec
        return self.parts.count(None) - is_final

    def length(self):
        """How many symbols the body has, with those of inner actions."""
        return len(self.symbols()) + self.inner_actions()


class File:
    """What the lexemes of a file say: lists of symbols with their places, and the rules."""

    def __init__(self, lexemes):
        self.lists_levels, self.listed, self.levels, self.numbers = False, [], [], []
        self.starts, self.typed, self.lefts, self.used, self.precs = [], [], [], [], []
        self.rules, self.literals = [], set()
        takes = {
            "list": self.take_list,
            "listed": self.take_listed,
            "numbered": self.take_number,
            "start": self.take_start,
            "declared": self.take_start_name,
            "typed": self.take_typed,
            "body": self.take_part,
            "prec name": self.take_prec,
            "semicolon": self.take_action_after_prec,
        }
        for it in lexemes:
            if it.kind == "LITERAL":
                self.literals.add(it.said)
            takes.get(it.state, lambda _: None)(it)
        self.tokens = {ERROR, *self.literals, *self.listed}
        self.nonterminals = {left for left, _ in self.lefts}

    def take_list(self, it):
        """A directive that begins a list."""
        self.lists_levels = it.kind in LEVELS

    def take_listed(self, it):
        """A token of a list."""
        self.listed.append(it.said)
        if self.lists_levels:
            self.levels.append((it.said, it.at))

    def take_number(self, it):
        """The number of the last token."""
        self.numbers.append((self.listed[-1], it.said, it.at))

    def take_start(self, it):
        """A %start."""
        self.starts.append([None, it.at])

    def take_start_name(self, it):
        """The symbol of a %start."""
        if it.kind in ("NAME", "LITERAL"):
            self.starts[-1][0] = it.said

    def take_typed(self, it):
        """A name of a %type."""
        self.typed.append((it.said, it.at))

    def take_part(self, it):
        """A part of a rule."""
        if it.kind == "C_IDENTIFIER":
            self.lefts.append((it.said, it.at))
        if it.kind in ("C_IDENTIFIER", "|"):
            self.rules.append(Rule(self.lefts[-1][0]))
        else:
            self.rules[-1].parts.append(it.said)
            self.used += [(it.said, it.at)] if it.said else []

    def take_prec(self, it):
        """The symbol of a %prec."""
        self.precs.append((it.said, it.at))
        self.used.append((it.said, it.at))

    def take_action_after_prec(self, it):
        """An action after a %prec."""
        self.rules[-1].has_action_after_prec |= it.kind == "ACT"


def first_of(pairs, symbols):
    """The place of the first of some symbols."""
    return next((at for symbol, at in pairs if symbol in symbols), None)


def token_on_the_left(file):
    """The place of a token on the left, or none."""
    return first_of(file.typed + file.lefts, file.tokens)


def undefined(file):
    """The place of a symbol that is neither token nor left side, or none."""
    names = {symbol for symbol, _ in file.typed + file.used}
    return first_of(file.typed + file.used, names - file.tokens - file.nonterminals)


def second_precedence(file):
    """The place of a second precedence, or none."""
    seen = set()
    for symbol, at in file.levels:
        if symbol in seen:
            return at
        seen.add(symbol)
    return None


def holders_of(file):
    """The tokens that hold each number, except those that get one that no other has."""
    given = {symbol for symbol, _, _ in file.numbers}
    held = [(number, symbol) for symbol, number, _ in file.numbers]
    held += [(it, it) for it in file.literals - given]
    held += [(NUMBER_OF_ERROR, ERROR)] if ERROR not in given else []
    holders = {}
    for number, symbol in held:
        holders.setdefault(number, set()).add(symbol)
    return holders


def bad_number(file):
    """The place of a number that no token may have, or none."""
    holders, seen = holders_of(file), set()
    for symbol, number, at in file.numbers:
        if not 1 <= number <= GREATEST_NUMBER or symbol in seen or len(holders[number]) > 1:
            return at
        seen.add(symbol)
    return None


def bad_start(file):
    """The place of a start that is no left side, or none."""
    is_good = len(file.starts) < 2 and all(it in file.nonterminals for it, _ in file.starts)
    return None if is_good else file.starts[-1][1]


def unproductive(file):
    """The place of a left side that derives no list of tokens, or none."""
    known, left = set(file.tokens), list(file.rules)
    while new := {rule.left for rule in left if known.issuperset(rule.symbols())} - known:
        known |= new
        left = [rule for rule in left if rule.left not in known]
    return first_of(file.lefts, file.nonterminals - known)


def prec_of_a_nonterminal(file):
    """The place of a %prec of a nonterminal, or none."""
    return first_of(file.precs, file.nonterminals)


def above_a_limit(file):
    """The first place where something is above a limit, or none."""
    inner = sum(rule.inner_actions() for rule in file.rules)
    # `$end` and `$accept` stand beside the tokens and the left sides, rule 0 beside the rules.
    symbols = len(file.tokens) + len(file.nonterminals) + inner + 2
    is_above = symbols > SYMBOL_LIMIT or len(file.rules) + inner + 1 > RULE_LIMIT
    return 0 if is_above or any(it.length() > BODY_LIMIT for it in file.rules) else None


MISTAKES = {
    "G6": token_on_the_left,
    "G7": undefined,
    "G8": second_precedence,
    "G9": bad_number,
    "G10": bad_start,
    "G11": unproductive,
    "G12": prec_of_a_nonterminal,
    "G13": above_a_limit,
}


def look_at(text):
    """Raises the fault that a file has."""
    file = File(lexemes_of(text))
    for code, place in MISTAKES.items():
        at = place(file)
        if at is not None:
            raise Fault(code, at)


def answer(text):
    """`accepted`, or the fault's code and line, as the programs say it."""
    if len(text) > FILE_LIMIT:
        return "G1"
    try:
        look_at(text)
    except Fault as fault:
        return f"{fault.code} at line {text.count(bytes([10]), 0, fault.at) + 1}"
    return "accepted"


def main(words):
    """Says what must be answered to some files."""
    for path in words:
        print(f"{path}: {answer(Path(path).read_bytes())}")
