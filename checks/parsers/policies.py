"""Compares parsers that `ycc` makes with those of bison and byacc, under their default reductions.

    policies [--seed N] [--drawn N] [ycc=PATH]

Over N grammars drawn at random (40) and lists of tokens for each, right and wrong ones, parsers
under `most` write the traces of bison's, byte for byte, with the same numbers of states and rules, and
come with the same reports, except counterexamples.
Under `consistent` with `parse.lac full` they make the steps of bison's, with the same texts of
errors, and under `sole` those of byacc's: when a token is read, what is shifted and reduced, what
is popped and discarded after an error, and how a parse ends. The traces of the peers tell their
steps. `parsers` compares `consistent` with `ystep`. The last line is `N passed, M failed`.
"""
import difflib
import os
import random
import re
import shutil
import tempfile
from concurrent.futures import ThreadPoolExecutor
from pathlib import Path
from typing import NamedTuple

from checks.shared import running
from checks.shared.arguments import asked
from checks.shared.grammars import productive, tokens_of
from checks.shared.libraries import compiler
from checks.shared.tables import Canonical, Tables, merged
from checks.shared.tally import Tally

# How many lists of tokens a parser gets, and how many lines of steps are compared.
LISTS, MOST = 24, 2_000
CHECKED = ["-g", "-fsanitize=address,undefined", "-fno-sanitize-recover=all"]

HEAD = """%%{
#include <stdio.h>
#include <stdlib.h>
static int yylex (void);
static void yyerror (const char *what);
static void said (int kind, int number);
#define YYSTEP(kind, number) said (kind, number)
%s
%%}
%s"""

TAIL = """
%%%%
static void said (int kind, int number)
{
  if (kind == 'r')
    fprintf (stderr, "r %%d\\n", number);
  else if (kind != 'e' && kind != 'f')
    fprintf (stderr, "%%c\\n", kind);
}

static void yyerror (const char *what)
{
  fprintf (stderr, "e %%s\\n", what);
}

static int yylex (void)
{
  static const int tokens[] = { 0%s };
  int at;
  fputs ("l\\n", stderr);
  return scanf ("%%d", &at) == 1 ? tokens[at] : 0;
}

int main (void)
{
  int ended;
%s  (void) said;
  ended = yyparse ();
  fprintf (stderr, "= %%d\\n", ended);
  return 0;
}
"""


class Way(NamedTuple):
    """A policy: the words that ask both for it, the peer, how its trace tells steps, and which
    kinds are left out: our consistent states are those of which conflicts leave one reduction too,
    so they are more than bison's, and reduce before a token that is then an error. Where a grammar
    has such a state, what a recovery finds on the stack differs too."""

    name: str
    ycc: list
    peer: list
    steps: dict
    leaves_out: str = ""


# Lines of traces, and the steps that they tell; of a whole trace each line is one.
WHOLE = {r"(.*)": r"\1"}
BISON = {
    r"Reducing stack by rule (\d+) .*": r"r \1",
    r'Shifting token "?(?:end of file|\$end).*': "a",
    r"Shifting token error .*": "x",
    r"Shifting token .*": "s",
    r"Error: popping .*": "p",
    r"Error: discarding .*": "d",
    r"(e .*|l|= \d)": r"\1",
}
BYACC = {
    r"yydebug\S*: state \d+, reducing by rule (\d+) .*": r"r \1",
    r"yydebug\S*: state \d+, shifting to state .*": "s",
    r"yydebug\S*: state \d+, error recovery shifting .*": "x",
    r"yydebug\S*: error recovery discarding state .*": "p",
    r"yydebug\S*: state \d+, error recovery discarding token .*": "d",
    r"(e .*|l|= \d)": r"\1",
}
SAYS = "%define parse.error verbose\n"
# What asks for a report on all but counterexamples, beside the parser.
REPORT = ["--report=itemsets,lookaheads,solved"]
PUSHED = ["-Dparse.lac=full", "-Dapi.push-pull=both"]
WAYS = [
    Way("most", ["--bison"], ["bison"], WHOLE),
    Way("most with LAC", ["--bison", "-Dparse.lac=full"], ["bison", "-Dparse.lac=full"], WHOLE),
    Way("most with LAC, by pushes", ["--bison", *PUSHED], ["bison", *PUSHED], WHOLE),
    Way(
        "consistent with LAC",
        ["-Dlr.default-reduction=consistent", "-Dparse.lac=full"],
        ["bison", "-Dlr.default-reduction=consistent", "-Dparse.lac=full"],
        BISON,
        "lrp",
    ),
    Way("sole", ["-Dlr.default-reduction=sole"], ["byacc"], BYACC),
]


class Differs(Exception):
    """What a parser does that it should not."""


def text_of(grammar, way, is_peer):
    """A grammar file with what reads its tokens and tells its steps."""
    is_traced = is_peer or way.steps is WHOLE
    traced = "  yydebug = 1;\n" if is_traced else ""
    declared = "#undef YYSTEP\n#define YYDEBUG 1" if is_traced else ""
    says = "" if way.steps is BYACC else SAYS
    tokens = "".join(f", {it}" for it in grammar.names[1 : grammar.tokens])
    tokens = tokens.replace(", error", ", -1", 1)
    return HEAD % (declared, says) + grammar.text + TAIL % (tokens, traced)


def built(folder, name, words, text):
    """The parser of a grammar file, or `None` where it is refused."""
    file, parser, program = (f"{folder}/{name}{it}" for it in (".y", ".c", ""))
    Path(file).write_text(text)
    if running.ran([*words, "-o", parser, file]).returncode:
        return None
    how = CHECKED if name == "own" else []
    made = running.ran([compiler(), "-w", *how, "-o", program, parser])
    if made.returncode:
        raise Differs(f"{name} is not compiled\n{made.stderr}")
    return program


def told(program, given):
    """The lines that a parser writes; some reduce without an end, of which the first are enough."""
    words = ["sh", "-c", 'timeout 20 "$0" 2>&1 | head -c 400000', program]
    it = running.ran(words, given=" ".join(map(str, given)))
    if "Sanitizer" in it.stdout or "runtime error" in it.stdout:
        raise Differs(it.stdout)
    return it.stdout.split("\n")[:-1]


def steps_of(lines, steps):
    """The steps that lines of a trace tell; that of byacc tells of the lowest state too, which is
    not popped."""
    made = []
    for line in lines:
        for form, step in steps.items():
            found = re.fullmatch(form, line)
            if found:
                made.append(found.expand(step))
                break
    if steps is BYACC and made[-2:] == ["p", "= 1"]:
        del made[-2]
    return made[:MOST]


def own_steps(lines, way):
    """The steps that our parser tells; byacc's trace tells no acceptance."""
    return [it for it in lines if it != "a" or way.steps is not BYACC][:MOST]


def is_reduced(grammar):
    """Whether each rule can be reached; bison gives the others no numbers."""
    known, more = {grammar.rules[0].left}, True
    while more:
        bodies = (rule.body for rule in grammar.rules if rule.left in known)
        more = {it for body in bodies for it in body} - known
        known |= more
    return known.issuperset(rule.left for rule in grammar.rules)


def reduced(rng):
    """A grammar that is drawn until all of it is of use."""
    while not is_reduced(grammar := productive(rng)):
        pass
    return grammar


def lists_of(grammar, rng):
    """Lists of tokens, by their places among the tokens."""
    for _ in range(LISTS):
        tokens = tokens_of(grammar, rng)
        for _ in range(rng.randrange(3)):
            at = rng.randint(0, len(tokens))
            tokens[at : at + rng.randrange(2)] = [rng.choice(range(2, grammar.tokens))]
        yield tokens


def is_by_design(way, wanted, made):
    """Whether steps differ as they may: bison tells of an error before it reads a token where
    `%nonassoc` leaves a state nothing; byacc's parser returns 1 at the end after a discard."""
    if way.steps is not BYACC:
        return "e syntax error" in wanted
    return wanted[-3:] == ["d", "l", "= 1"] and made == [*wanted[:-1], "= 0"]


def reduces_where_it_accepts(grammar):
    """Whether a rule can be reduced in the state that accepts."""
    start = grammar.rules[0].body[0]
    begun = [it.body for it in grammar.rules[1:] if it.body[:1] == [start]]
    ahead, more = set(), {it[1] for it in begun if len(it) > 1}
    while more:
        ahead |= more
        bodies = [it.body for it in grammar.rules if it.left in more]
        if not all(bodies):
            return True
        more = {it[0] for it in bodies} - ahead
    return any(len(it) == 1 for it in begun)


def reduces_at_error_alone(grammar):
    """Whether all that a state does is a reduction at `error`."""
    cells = (list(it.items()) for it in Tables(grammar).cells)
    return any(len(it) == 1 and it[0][0] == 1 and it[0][1][0] == "r" for it in cells)


def is_for(way, grammar):
    """Whether the grammar has the same default reductions by the peer: byacc gives a state none
    that reduces at `error` alone, and one to the state that accepts."""
    return way.steps is not BYACC or not (
        reduces_at_error_alone(grammar) or reduces_where_it_accepts(grammar)
    )


def leaves_one(grammar):
    """Whether conflicts leave one reduction of several to a state that reads no token."""
    order, items, _ = merged(Canonical(grammar))
    bodies = [rule.body for rule in grammar.rules]
    complete = [{rule for rule, dot, _ in items[it] if dot == len(bodies[rule])} for it in order]
    return any(len(complete[state]) > 1 for state in Tables(grammar).defaults)


def compared(way, steps, is_cut):
    """The steps that are compared: where they are cut, those up to the first error."""
    kept = [it for it in steps if it[0] not in way.leaves_out]
    ends = [at for at, it in enumerate(kept) if is_cut and it.startswith("e ")]
    return kept[: ends[0] + 1] if ends else kept


def is_cyclic(grammar):
    """Whether a nonterminal derives itself, as by the rule `s : s`: then reductions can go on
    without an end."""
    nullable = Canonical(grammar).nullable
    steps = {
        (rule.left, symbol)
        for rule in grammar.rules
        for at, symbol in enumerate(rule.body)
        if nullable.issuperset(rule.body[:at] + rule.body[at + 1 :])
    }
    before = set()
    while steps != before:
        before = set(steps)
        steps |= {(left, to) for left, by in before for at, to in before if by == at}
    return any(left == symbol for left, symbol in steps)


def is_endless(steps):
    """Whether a parser was stopped before it ended."""
    return not steps or not steps[-1].startswith("= ")


def compare_reports(way, grammar, folder):
    """The reports beside both parsers of a grammar."""
    wanted, made = (Path(f"{folder}/{it}.output").read_text().split("\n") for it in ("peer", "own"))
    if wanted != made:
        lines = "\n".join(difflib.unified_diff(wanted, made, "bison", "ycc", lineterm="", n=2))
        raise Differs(f"{way.name}\n{grammar.text}\n{lines}")


def compare(way, grammar, lists, ycc):
    """Both parsers of a grammar on lists of tokens."""
    is_cut = bool(way.leaves_out) and leaves_one(grammar)
    report = REPORT if way.steps is WHOLE else []
    with tempfile.TemporaryDirectory() as folder:
        peer = built(folder, "peer", [*way.peer, *report], text_of(grammar, way, True))
        own = built(folder, "own", [ycc, *way.ycc, *report], text_of(grammar, way, False))
        if peer is None or own is None:
            if peer or own:
                raise Differs(f"{way.name}: one refuses\n{grammar.text}")
            return
        if report:
            compare_reports(way, grammar, folder)
        for given in lists:
            wanted = steps_of(told(peer, given), way.steps)
            if not wanted or wanted[-1][0] != "=" or "e memory exhausted" in wanted:
                # it reduces without an end
                continue
            made = own_steps(told(own, given), way)
            if is_cut and is_endless(made) and is_cyclic(grammar):
                # a conflict leaves a state one reduction, which it makes before it reads a token
                continue
            wanted, made = (compared(way, it, is_cut) for it in (wanted, made))
            if made != wanted and not is_by_design(way, wanted, made):
                names = " ".join(grammar.names[it] for it in given)
                both = f"{way.peer[0]}:\n{wanted}\nycc:\n{made}"
                raise Differs(f"{way.name}\n{grammar.text}\n{names}\n{both}")


def wrong(job):
    """The lines that say why a check fails; none where it doesn't."""
    try:
        compare(*job)
        return []
    except Differs as differs:
        return [f"{differs}\n"]


def main(words):
    """Compares parsers with those of the peers."""
    given = asked(__doc__, words, ("ycc",), seed=1, drawn=40)
    rng, tally, jobs = random.Random(given.seed), Tally(), []
    ways = [it for it in WAYS if shutil.which(it.peer[0])]
    for peer in sorted({it.peer[0] for it in WAYS} - {it.peer[0] for it in ways}):
        print(f"{peer} is not installed: nothing is compared with it")
    for _ in range(given.drawn):
        grammar = reduced(rng)
        lists = list(lists_of(grammar, rng))
        fits = (it for it in ways if is_for(it, grammar))
        jobs += [(way, grammar, lists, given.programs["ycc"]) for way in fits]
    with ThreadPoolExecutor(os.cpu_count()) as pool:
        for job, lines in zip(jobs, pool.map(wrong, jobs)):
            tally.take(job[0].name, lines)
    return tally.end()
