"""Compares what `ydebug` says in JSON and as a compiler with its report for people.

    documents [ydebug=PATH] [--seconds N] [--turns N] [--seed N]

The conflicts of each grammar of the scenarios, and of random ones: their counts, cells and kinds,
their states, tokens, rules and counterexamples, their causes, the warnings, and each line as gcc
has it. The
numbers of conflicts in the report are the places of kinds in the document. Every place is looked up
in the file: of rules, of conflicts, of warnings; and again in a file of bison, where names that an
import takes out stand before it on its line. Then verdicts on random inputs, and faults of tokens
files, each at its word. The last line is `N passed, M failed`: grammars.
"""
import json
import random
import re
import tempfile
from itertools import takewhile
from pathlib import Path

from checks.comparers.conflicts import GIVEN_UP, HEAD, lists_in, parts_of
from checks.shared.arguments import asked
from checks.shared.grammars import productive
from checks.shared.places import SCENARIOS
from checks.shared.running import ran, turns
from checks.shared.spelling import WARNED
from checks.shared.tally import Tally

VERSION = 1
COUNTS = re.compile(
    r"grammar\.y: (\d+) shift/reduce, (\d+) reduce/reduce, in (\d+) table entr(?:y|ies) of (\d+) groups?"
)
REDUCE = re.compile(r"  reduce  rule (\d+) (?:\(line (\d+)\))? *(.*)")
WARNING = re.compile(r"grammar\.y(?::(\d+))?(?::(\d+))?: warning: (?!conflict \d)(.*)")
STATES = re.compile(r"  The same in (\d+) states, the last of them (\d+)\.")
MORE = re.compile(r"(?m)^\d+ groups? more[;,]")
NUMBER = re.compile(WARNED + r"conflict (\d+): ")
PLACE = re.compile(r"grammar\.y:(\d+):(\d+): ")
# Further tokens of a block, which stand on the lines after this one.
OTHERS = re.compile(r"  (?:The same|Also) on \d+ other tokens?, conflicts? (.*):")
TOKEN = re.compile(r"'.[^']*'|\S+")
WORDS = {"shift": "shift", "accept": "shift", "reduce": "reduce"}
# Warnings about a symbol, and what is said of a rule.
SYMBOL = re.compile(
    r"(?:useless precedence for |token |useless (?:token|nonterminal) )('.[^']*'|[^\s:]+)"
    r"(?: is declared but never used|: it can't be reached from the start symbol|$)"
)
LEFT_SIDE = re.compile(
    r"(?:rule \d+ is useless in the parser due to conflicts:  |.* conflict on .*?, not rule \d+ \()"
    r"(\S+): .*"
)
IDLE = re.compile(r"useless %prec in rule \d+|%prec in rule \d+ may be useless")
# What rules begin with, where the left side isn't told.
SOME_RULE = r"[A-Za-z_.][\w.]*(?:\[\w+\])?\s*:|\|"
FOREIGN = re.compile(r"foreign\.y:(\d+)(?::(\d+))?: \w+: (.*?)(?: \[-W[a-z-]+\])?")
NOTE = re.compile(r"grammar\.y:(\d+):(\d+): note: (.*)")
RIVAL = re.compile(r"(?:not )?taken: (?:the shift in )?rule (\d+)  (.*)")
COPY = re.compile(
    r"(?m)^  With a copy of (.+), which has the same rules, in rule (\d+) \(line (\d+)\) (\d+) of (\d+) "
)
# In the text of a grammar that was drawn: a left side, what a body begins with, a listed token.
LEFT, FIRST, LISTED = (
    re.compile(it) for it in (r"(?m)^([a-z]+)(?= :)", r"([:|] [A-Za-z]+)", r"\b([A-Z]+)\b")
)


class Names:
    """Names that stand for themselves where a report is read by numbers."""

    @staticmethod
    def index(name):
        """The name."""
        return name


def wrong_counts(text, found):
    """What is wrong with the counts."""
    told = COUNTS.match(text)
    counts = tuple(map(int, told.groups())) if told else (0, 0, 0, 0)
    ours = (*(found[it] for it in ("shift_reduce", "reduce_reduce", "cells")), len(found["causes"]))
    return None if counts == ours else f"counts {ours}, told {counts}"


def lists_told(part):
    """The counterexamples of a conflict: the rules that each is for, where it says so, and tokens."""
    return [(it.rules, it.alone, it.tokens) for it in lists_in(part, Names)]


def wrong_lists(part, kind):
    """What is wrong with counterexamples, unless they weren't sought, or were given up."""
    told, lists = lists_told(part), kind["lists"]
    if lists is None or GIVEN_UP in part:
        return None
    if len(told) != len(lists):
        return f"{len(told)} lists, told {lists}"
    for (rules, alone, tokens), found in zip(told, lists):
        if tokens != found["tokens"] or (alone and found["both"]):
            return f"list {tokens}, told {found}"
        if rules and rules != found["rules"]:
            return f"list for {rules}, told {found}"
    return None


def wrong_states(part, kind):
    """What is wrong with the states of a conflict."""
    same = next(filter(None, map(STATES.fullmatch, part)), None)
    states, last = map(int, same.groups()) if same else (1, kind["state"])
    return None if (kind["states"], kind["last"]) == (states, last) else f"states, told {kind}"


def wrong_kind(part, kind):
    """What is wrong with a conflict."""
    head = HEAD.match(part[0])
    told = int(head[1]), head[2], WORDS[head[3]]
    if told != (kind["state"], kind["token"], kind["taken"]):
        return f"{told}, told {kind}"
    rules = {
        (int(it[1]), it[2] and int(it[2]), it[3].strip())
        for it in map(REDUCE.match, part) if it
    }
    for rule in kind["rules"]:
        if (rule["rule"], rule["line"], rule["text"]) not in rules:
            return f"rules {rules}, told {rule}"
    return wrong_states(part, kind) or wrong_lists(part, kind)


def numbers_in(text):
    """The numbers that a text lists: `2 to 4, 7`."""
    for part in text.split(", "):
        first, _, last = part.partition(" to ")
        yield from range(int(first), int(last or first) + 1)


def others_in(part):
    """The further conflicts of a block: the number and the token of each."""
    for at, line in enumerate(part):
        if found := OTHERS.fullmatch(line):
            tokens = takewhile(lambda it: it.startswith("    "), part[at + 1 :])
            yield from zip(numbers_in(found[1]), TOKEN.findall(" ".join(tokens)))


def wrong_other(head, kind, token):
    """What is wrong with a further conflict of a block: it differs from the first by its token."""
    same = "state", "taken", "rules", "more"
    fits = kind["token"] == token and all(kind[it] == head[it] for it in same)
    return None if fits else f"{token} beside {head}, told {kind}"


def first_lost(kind):
    """The first rule of a conflict that isn't taken."""
    return kind["rules"][kind["taken"] == "reduce"]


def wrong_front(line, kind):
    """What is wrong with the place in front of a conflict: it is that of the first rule that isn't
    taken."""
    told, rule = PLACE.match(line), first_lost(kind)
    fits = told and [int(it) for it in told.groups()] == [rule["line"], rule["column"]]
    return None if fits else f"{rule}, told {line}"


def wrong_block(part, kinds):
    """What is wrong with a block of conflicts."""
    head = kinds[int(NUMBER.match(part[0])[1]) - 1]
    wrong = [wrong_other(head, kinds[at - 1], token) for at, token in others_in(part)]
    wrong = [wrong_front(part[0], head), wrong_kind(part, head), *wrong]
    return next(filter(None, wrong), None)


def wrong_places(parts, kinds, text):
    """What is wrong with the numbers of conflicts: unless some weren't sought, all are told."""
    told = [int(NUMBER.match(part[0])[1]) for part in parts]
    told += [at for part in parts for at, _ in others_in(part)]
    wanted = set(range(1, len(kinds) + 1))
    fits = len(told) == len(set(told)) and set(told) <= wanted
    fits = fits and (set(told) == wanted or MORE.search(text))
    return None if fits else f"conflicts {sorted(told)}, told {len(kinds)}"


def front_of(left):
    """What a rule of this left side begins with: that, a bar, or the brace of an inner action."""
    return r"\{" if left.startswith("$$") else rf"{re.escape(left)}\b|\|"


def wrong_place(source, told, front):
    """What is wrong with a place: it lacks, or something else stands there."""
    if told["column"] is None:
        return f"no column: {told}"
    rest = source.split(b"\n")[told["line"] - 1][told["column"] - 1 :]
    return None if re.match(front.encode(), rest) else f"{front} at {told}"


def wrong_columns(source, kinds):
    """What is wrong with the columns of rules: there they begin."""
    rules = (rule for kind in kinds for rule in kind["rules"])
    wrong = (wrong_place(source, it, front_of(it["text"].split(":")[0])) for it in rules)
    return next(filter(None, wrong), None)


def wrong_head(cause, kinds, told):
    """What is wrong with the place of a cause: it is that of the first rule that isn't taken."""
    first = first_lost(kinds[cause["kinds"][0]])
    fits = (told["line"], told["column"]) == (first["line"], first["column"])
    fits = fits and told["category"] == cause["category"] and cause["loses"][0] == first["rule"]
    return None if fits else f"{first}, told {told} and {cause}"


def wrong_cause(cause, kinds):
    """What is wrong with a cause beside its kinds."""
    ours, states = [kinds[it] for it in cause["kinds"]], cause["states"]
    fits = cause["tokens"] == [it["token"] for it in ours] and states == sorted(set(states))
    for kind in ours:
        lost = [it["rule"] for it in kind["rules"]][kind["taken"] == "reduce" :]
        at = kind["state"], kind["states"], kind["last"]
        fits = fits and lost == cause["loses"] and at == (states[0], len(states), states[-1])
        fits = fits and cause["kind"] == f"{kind['taken']}/reduce"
    fits = fits and (cause["offer"] == "hints" or not cause["hints"])
    fits = fits and (cause["offer"] in ("hints", "idiom") or not cause["ambiguous"])
    fits = fits and (cause["offer"] == "idiom") == bool(cause["mend"] and cause["mend"]["idiom"])
    taken = {it["action"] for it in cause["rivals"] if it["taken"]}
    return None if fits and taken == {ours[0]["taken"]} else f"{ours}, told {cause}"


def wrong_causes(found, diagnostics):
    """What is wrong with the causes: each kind stands in one, and each cause has its place."""
    causes, kinds = found["causes"], found["kinds"]
    told = [at for cause in causes for at in cause["kinds"]]
    if sorted(told) != list(range(len(told))) or (len(told) < len(kinds) and len(told) < 200):
        return f"kinds {sorted(told)}, told {len(kinds)}"
    wrong = [wrong_head(cause, kinds, it) for cause, it in zip(causes, diagnostics)]
    return next(filter(None, [*wrong, *(wrong_cause(it, kinds) for it in causes)]), None)


def wrong_notes(lines, found):
    """What is wrong with notes on rivals: each stands at its rule."""
    rivals = [it for cause in found["causes"] for it in cause["rivals"]]
    notes = [it for it in map(NOTE.fullmatch, lines) if it and RIVAL.fullmatch(it[3])]
    told = [(int(it[1]), int(it[2]), *RIVAL.fullmatch(it[3]).groups()) for it in notes]
    wanted = [(it["line"], it["column"], str(it["rule"]), it["text"]) for it in rivals]
    fits = len(told) == len(wanted)
    fits = fits and all(a == b or b[0] is None for a, b in zip(told, wanted))
    return None if fits else f"rivals {wanted}, told {told}"


def front_in(message):
    """What stands at the place of a conflict or a warning: a symbol, whose literals may be spelled
    otherwise, or the front of a rule; nothing where it is neither."""
    if found := SYMBOL.fullmatch(message):
        return "'" if found[1][0] == "'" else rf"{re.escape(found[1])}\b"
    found = LEFT_SIDE.fullmatch(message)
    return front_of(found[1]) if found else IDLE.fullmatch(message) and SOME_RULE


def wrong_spots(source, diagnostics):
    """What is wrong with the places of conflicts and warnings."""
    fronts = [front_in(it["message"]) for it in diagnostics]
    wrong = (wrong_place(source, it, front) for it, front in zip(diagnostics, fronts) if front)
    return next(filter(None, wrong), None)


def wrong_warnings(text, diagnostics):
    """What is wrong with the warnings: they stand after the conflicts."""
    found = filter(None, map(WARNING.fullmatch, text.split("\n")))
    told = [(it[1] and int(it[1]), it[2] and int(it[2]), it[3]) for it in found]
    ours = [(it["line"], it["column"], it["message"]) for it in diagnostics]
    ours = ours[len(diagnostics) - len(told) :]
    return None if told == ours else f"warnings {told}, told {ours}"


def lines_of(diagnostics):
    """Diagnostics as gcc has them, except the places of notes."""
    for it in diagnostics:
        front = ":".join(str(it[at]) for at in ("file", "line", "column") if it[at] is not None)
        category = f" [-W{it['category']}]" if it["category"] else ""
        yield f"{front}: {it['severity']}: {it['message']}{category}"
        yield from (f"note: {note}" for note in it["notes"])


def without_places(line):
    """A line, without its place where it is a note of a grammar file."""
    found = NOTE.fullmatch(line)
    return f"note: {found[3]}" if found else line


def wrong_offers(causes):
    """What is wrong with what is offered: hints for a sentence with two trees, and none where each
    rival has one of its own."""
    for cause in causes:
        is_known = (cause["ambiguous"] or cause["sentences"]) and cause["offer"] != "idiom"
        if is_known and (cause["offer"] == "hints") != cause["ambiguous"]:
            return f"offered {cause}"
    return None


def wrong_conflicts(source, text, found, diagnostics):
    """What is wrong with the conflicts of a grammar."""
    parts, kinds = parts_of(text), found["kinds"]
    if kinds and kinds[0]["lists"] is None:
        return f"no lists: {kinds[0]}"
    wrong = wrong_counts(text, found) or wrong_columns(source, kinds)
    wrong = wrong or wrong_causes(found, diagnostics) or wrong_spots(source, diagnostics)
    wrong = wrong or wrong_warnings(text, diagnostics) or wrong_places(parts, kinds, text)
    wrong = wrong or wrong_offers(found["causes"]) or wrong_splits(text, found["causes"])
    return wrong or next(filter(None, (wrong_block(it, kinds) for it in parts)), None)


def wrong_splits(text, causes):
    """What is wrong with the copies that split merged states: the report tells the same ones."""
    told = [(it[1], *map(int, it.groups()[1:])) for it in COPY.finditer(text)]
    splits = (cause["split"] for cause in causes if cause["split"])
    found = [tuple(map(it.get, ("symbol", "rule", "line", "left", "all"))) for it in splits]
    return None if found == told else f"copies {found}, told {told}"


def differences(source, text, document, lines):
    """What is wrong with a document and with lines beside a report."""
    made = json.loads(document)
    diagnostics = made["diagnostics"]
    if made["version"] != VERSION or made["form"] != "conflicts" or made["inputs"] is not None:
        return f"no document on conflicts: {document}"
    if list(lines_of(diagnostics)) != list(map(without_places, lines.splitlines())):
        return f"lines: {lines}"
    if made["conflicts"] is None:
        return None if diagnostics and not text else f"no conflicts: {document}"
    wrong = wrong_notes(lines.splitlines(), made["conflicts"])
    return wrong or wrong_conflicts(source, text, made["conflicts"], diagnostics)


def wrong_report(ydebug, room):
    """What is wrong with what is said of the grammar of a folder."""
    words = [ydebug, "conflicts", "--all", "grammar.y"]
    made = [ran([*words, *it], room) for it in ([], ["--format=json"], ["--format=gcc"])]
    text, document, lines = made
    source = (Path(room) / "grammar.y").read_bytes()
    wrong = differences(source, text.stdout, document.stdout, lines.stdout)
    if any(it.returncode != text.returncode for it in made):
        wrong = f"statuses {[it.returncode for it in made]}"
    return wrong or (document.stderr + lines.stderr) or None


def foreign_text(text):
    """The same grammar as a file of bison: with names and strings that an import takes out."""
    text = FIRST.sub(r"\1[it]", LEFT.sub(r"\1[all]", text))
    lines = (LISTED.sub(r'\1 "\1"', it) if it.startswith("%token") else it for it in text.split("\n"))
    return "\n".join(lines)


def wrong_import(ydebug, room, text):
    """What is wrong with the places in the same grammar as a file of bison."""
    source = foreign_text(text)
    (Path(room) / "foreign.y").write_text(source)
    words = [ydebug, "conflicts", "foreign.y", "--from=bison", "--format=gcc"]
    found = filter(None, map(FOREIGN.fullmatch, ran(words, room).stdout.splitlines()))
    told = [{"line": int(it[1]), "column": it[2] and int(it[2]), "message": it[3]} for it in found]
    wrong = wrong_spots(source.encode(), told)
    return wrong and f"{source}{wrong}"


PLAIN = {
    "accepted": re.compile(r"inputs/\d+: accepted at (\d+)"),
    "rejected": re.compile(r"inputs/\d+: rejected at token (\d+)"),
    "undecided": re.compile(r"inputs/\d+: limit()"),
}


def wrong_verdict(told, sheet):
    """What is wrong with a verdict beside a plain line."""
    found = PLAIN[sheet["verdict"]].fullmatch(told)
    number = {"accepted": sheet["steps"], "rejected": sheet["number"], "undecided": ""}
    fits = found and found[1] == str(number[sheet["verdict"]])
    return None if fits else f"{told}, told {sheet}"


def wrong_token(tokens, sheet):
    """What is wrong with the token of a rejection."""
    if sheet["verdict"] != "rejected":
        return None
    token = [*tokens, "$end"][sheet["number"] - 1]
    fits = token == sheet["token"] and token not in sheet["expected"]
    return None if fits else f"{token}, told {sheet}"


def wrong_verdicts(ydebug, room, inputs):
    """What is wrong with what is said of inputs, each a list of tokens."""
    folder = Path(room) / "inputs"
    folder.mkdir(exist_ok=True)
    paths = [f"inputs/{at}" for at in range(len(inputs))]
    for path, tokens in zip(paths, inputs):
        (Path(room) / path).write_text(" ".join(tokens) + "\n")
    words = [ydebug, "check", "grammar.y", *paths]
    plain, document = (ran([*words, it], room) for it in ("--plain", "--format=json"))
    made = json.loads(document.stdout)
    lines, sheets = plain.stdout.splitlines()[1:], made["inputs"]
    statuses = {made["status"], document.returncode, plain.returncode}
    if len(lines) != len(sheets) or len(statuses) > 1:
        return f"{lines}, told {document.stdout}"
    wrong = map(wrong_verdict, lines, sheets)
    return next(filter(None, [*wrong, *map(wrong_token, inputs, sheets)]), None)


def wrong_fault(ydebug, room, tokens, rng):
    """What is wrong with the place of a word that is no token, among others and blanks."""
    at = rng.randrange(len(tokens) + 1)
    text = ""
    for word in [*tokens[:at], "no-token", *tokens[at:]]:
        text += rng.choice([" ", "\t", "\n", "\n\n  "]) + word
    (Path(room) / "fault").write_text(text)
    words = [ydebug, "check", "grammar.y", "fault", "--format=json"]
    told = json.loads(ran(words, room).stdout)["diagnostics"][0]
    lines = text[: text.index("no-token")].split("\n")
    place = len(lines), len(lines[-1]) + 1
    fits = told["message"].startswith("K1: ") and (told["line"], told["column"]) == place
    return None if fits else f"{text!r}: {place}, told {told}"


def inputs_of(grammar, rng):
    """Random lists of tokens that a tokens file can have."""
    names = grammar.names[2 : grammar.tokens] or ["$end"]
    return [[rng.choice(names) for _ in range(rng.randrange(6))] for _ in range(8)]


def compared(ydebug, room, rng):
    """What is wrong with what is said of a random grammar and of inputs."""
    grammar = productive(rng)
    (Path(room) / "grammar.y").write_text(grammar.text)
    inputs = inputs_of(grammar, rng) if grammar.tokens > 2 else [[]]
    wrong = wrong_report(ydebug, room) or wrong_import(ydebug, room, grammar.text)
    wrong = wrong or wrong_verdicts(ydebug, room, inputs) or wrong_fault(ydebug, room, inputs[0], rng)
    return [f"{grammar.text}{wrong}\n"] if wrong else []


def scenarios():
    """The grammar files of scenarios on conflicts."""
    return sorted((SCENARIOS / "ydebug/conflicts").glob("*/grammar.y"))


def main(words):
    """Compares forms of what is said for some seconds."""
    given = asked(__doc__, words, ("ydebug",), seconds=30.0, turns=0, seed="1")
    ydebug, tally = given.programs["ydebug"], Tally()
    with tempfile.TemporaryDirectory() as room:
        for file in scenarios():
            (Path(room) / "grammar.y").write_bytes(file.read_bytes())
            wrong = wrong_report(ydebug, room)
            tally.take(file.parent.name, [f"{wrong}\n"] if wrong else [])
        rng = random.Random(given.seed)
        for turn in turns(given):
            tally.take(f"grammar {turn}", compared(ydebug, room, rng))
            if tally.failed:
                break
    return tally.end()
