"""Compares the steps of parsers that `ycc` makes with those of `ystep`.

    parsers [--seed N] [--drawn N] [yacc=PATH] [ystep=PATH] [ycc=PATH] [ydebug=PATH]

Over the grammar and tokens of every scenario and example, and over N grammars drawn at random (40),
each parser, in byacc's order or in bison's, or one into which its tokens are pushed, is compiled by
the compiler (CC, or cc) with its sanitizers, as C90 without a warning, and makes the steps of
`ystep`, line for line. Texts of actions, code and `%union` are left out, since those of scenarios
are no C; values are numbers. The calculators of examples/calculator-c and examples/push are built
as C90, C99, C17 and C++17 by each compiler that is there, without a warning, the first with a trace
and without, and answer as they should; a copy of the first with another prefix is linked beside it. Parsers with messages say of each input of `ydebug errors` what
`ydebug check --messages` says; parsers with LAC list at an error the tokens that `ydebug check`
expects. The program of the tutorial answers as the tutorial says. The last line is
`N passed, M failed`.
"""
import os
import random
import shutil
import tempfile
import zlib
from concurrent.futures import ThreadPoolExecutor
from pathlib import Path

from checks.parsers import lists
from checks.parsers.messages import ENTRIES, grammars, told_of
from checks.parsers.pairs import MOST, cases_of, pairs_of_scenarios
from checks.scenarios import proved
from checks.scenarios.pages import blocks_of
from checks.scenarios.shown import answer_to
from checks.shared import running
from checks.shared.arguments import asked
from checks.shared.grammars import pair_of
from checks.shared.libraries import compiler
from checks.shared.places import EXAMPLES, TUTORIAL
from checks.shared.spelling import bare
from checks.shared.table_file import table_of
from checks.shared.tally import Tally

WAY = ["-std=c90", "-Wall", "-Wextra", "-pedantic", "-Werror", "-O1"]
CHECKED = ["-fsanitize=address,undefined", "-fno-sanitize-recover=all"]

HEAD = b"""%{
#include <stdio.h>
#include <stdlib.h>
static void said (int kind, int number);
static int yylex (void);
static void yyerror (const char *what);
#define YYSTEP(kind, number) said (kind, number)
#define YYSTYPE int
#define YYMAXDEPTH 1000000
%}
"""

TAIL = b"""
%%%%
static void said (int kind, int number)
{
  static int steps;
  if (kind == 's' || kind == 'd')
    number = (int) YYTRANSLATE (number);
  if (printf ("%%c %%d\\n", kind, number) < 0 || ++steps == %d)
    exit (fflush (stdout) ? 3 : 0);
}

static void yyerror (const char *what)
{
  if (what[0] != 's')
    exit (4);
}

/* The parser has numbers of tokens as byacc or bison gives them; here they go by their kinds. */
static int number_of (int token)
{
  int number;
  for (number = 0; number <= YYMAXTOKEN; number++)
    if ((int) yytranslate[number] == token)
      return number;
  exit (6);
}

static int yylex (void)
{
  int token;
  return scanf ("%%d", &token) == 1 ? number_of (token) : 0;
}

int main (void)
{
  int ended = yyparse ();
  return ended == 0 || ended == 1 ? 0 : 5;
}
""" % MOST


# What a parser does at an error.
SILENT = b"""  if (what[0] != 's')
    exit (4);
"""
SPEAKS = b"""  printf ("m %s", what);
  exit (fflush (stdout) ? 3 : 0);
"""
LONGEST = 1_000_000
CALCULATOR, PUSHED = EXAMPLES / "calculator-c", EXAMPLES / "push"
# Compilers, and what each is asked to take the calculator for.
LANGUAGES = {
    "gcc": ["-std=c90", "-std=c99", "-std=c17"],
    "clang": ["-std=c90", "-std=c99", "-std=c17"],
    "g++": ["-std=c++17"],
    "clang++": ["-std=c++17"],
}
STRICT = ["-Wall", "-Wextra", "-pedantic", "-Werror"]


class Differs(Exception):
    """What a parser does that it should not."""


class Names:
    """The steps that a parser writes, by the names of its table."""

    def __init__(self, table):
        self.leads, self.tokens = table.leads(), dict(enumerate(table.names[: table.tokens]))
        self.kinds = {name: kind for kind, name in self.tokens.items()}

    def step(self, kind, number):
        """A step as `ystep` writes it."""
        return {
            "s": lambda: f"shift {self.tokens[number]}",
            "r": lambda: f"reduce {number}",
            "a": lambda: "accept",
            "e": lambda: "detect",
            "p": lambda: f"pop {self.leads[number]}",
            "x": lambda: "shift error",
            "d": lambda: f"discard {self.tokens[number]}",
            "f": lambda: "fail",
        }[kind]()


def told_steps(text, known):
    """The lines that a parser writes, as `ystep` writes them."""
    lines = text.decode().split("\n")[:-1]
    steps = (known.step(line[0], int(line[2:])) for line in lines)
    return "".join(f"{at} {step}\n" for at, step in enumerate(steps, 1))


def ran(words, what, given=b""):
    """What a program writes, which has to end well and in silence."""
    it = running.ran(words, None, given)
    if it.returncode or it.stderr:
        raise Differs(f"{what} ended with {it.returncode}\n{it.stderr.decode(errors='replace')}")
    return it.stdout


def built(folder, grammar, ycc):
    """The parser of a grammar."""
    file, parser, program = (f"{folder}/{it}" for it in ("grammar.y", "parser.c", "parser"))
    Path(file).write_bytes(HEAD + bare(grammar) + TAIL)
    bison = ["--bison", "-Dlr.default-reduction=consistent"]
    orders = [[], bison, [], [*bison, "-Dapi.push-pull=both"]]
    order = orders[zlib.crc32(grammar) % len(orders)]
    ran([ycc, *order, "-Wnone", "-o", parser, file], "ycc")
    ran([compiler(), *WAY, *CHECKED, "-o", program, parser], "the compiler")
    return program


def steps_of(program, table, names):
    """The steps that a parser makes, as `ystep` writes them."""
    known = Names(table_of(table))
    given = " ".join(str(known.kinds[name]) for name in names)
    return told_steps(ran([program], "the parser", given.encode()), known)


def compare(grammar, cases, ycc):
    """The parser of a grammar on each of its lists of tokens."""
    with tempfile.TemporaryDirectory() as folder:
        program = built(folder, grammar, ycc)
        for table, names, steps, *_ in cases:
            made = steps_of(program, table, names)
            if made != steps:
                raise Differs(f"{grammar.decode()}\n{names}\nystep:\n{steps}\nthe parser:\n{made}")


def speaking(folder, told, ycc, order):
    """The parser of a grammar with messages, which ends at the first error."""
    names = ("grammar.y", "messages", "parser.c", "parser")
    file, messages, parser, program = (f"{folder}/{it}" for it in names)
    Path(file).write_bytes(HEAD + bare(told.grammar) + TAIL.replace(SILENT, SPEAKS))
    Path(messages).write_bytes(told.messages)
    ran([ycc, *order, "--messages", messages, "-o", parser, file], "ycc")
    ran([compiler(), *WAY, *CHECKED, "-o", program, parser], "the compiler")
    return program


def said_of(program, table, names):
    """What a parser says of the first error."""
    kinds = Names(table_of(table)).kinds
    given = " ".join(str(kinds[name]) for name in names)
    made = ran([program], "the parser", given.encode()).decode()
    return made.partition("m ")[2].replace("\n", "\\n")


def compare_said(grammar, programs, order):
    """What the parser of a grammar with messages says of errors against `ydebug`."""
    told = told_of(grammar, proved, programs, texts=ENTRIES)
    with tempfile.TemporaryDirectory() as folder:
        program = speaking(folder, told, programs["ycc"], order)
        for (table, names), text in zip(told.cases, told.texts, strict=True):
            wanted = "syntax error" if text.startswith("unexpected ") else text
            made = said_of(program, table, names)
            if made != wanted:
                raise Differs(f"{names}\nydebug:\n{wanted}\nthe parser:\n{made}")


def compare_lists(grammar, cases, programs):
    """The parser of a grammar with LAC lists at an error what `ydebug check` expects."""
    differs = lists.difference(grammar, cases, programs)
    if differs:
        raise Differs(differs)


def by_grammar(pairs, programs):
    """The cases of each grammar that no program refuses."""
    found = {}
    for pair in pairs:
        cases = list(cases_of([pair], proved, programs))
        if cases:
            found.setdefault(pair[0], []).extend(cases)
    return found


def compilers():
    """Each compiler that is there, with each language."""
    for compiler, languages in LANGUAGES.items():
        if shutil.which(compiler):
            yield from ((compiler, language) for language in languages)


def sums_of(program, example=CALCULATOR):
    """What the calculator answers to the sums of the example."""
    return ran([program], "the calculator", (example / "sums").read_bytes())


def calculator(folder, example, ycc, options, compiler, language):
    """A calculator, built in one way."""
    kind = "cc" if "++" in language else "c"
    parser, program = f"{folder}/calc.{kind}", f"{folder}/calc"
    ran([ycc, *options, "-o", parser, str(example / "calc.y")], "ycc")
    ran([compiler, language, *STRICT, "-O1", "-o", program, parser], f"{compiler} {language}")
    return program


def compare_calculator(example, ycc, options, compiler, language):
    """A calculator, built in one way, on sums whose answers are known."""
    with tempfile.TemporaryDirectory() as folder:
        program = calculator(folder, example, ycc, options, compiler, language)
        answers = sums_of(program, example)
    if answers != (example / "answers").read_bytes():
        raise Differs(f"{compiler} {language} {options}: {answers.decode(errors='replace')}")


def link_both(ycc):
    """Two parsers in one program, which have no name in common but `main`."""
    with tempfile.TemporaryDirectory() as folder:
        objects = []
        for prefix in ("yy", "other"):
            parser = f"{folder}/{prefix}.c"
            ran([ycc, "-p", prefix, "-o", parser, str(CALCULATOR / "calc.y")], "ycc")
            objects.append(f"{folder}/{prefix}.o")
            words = [f"-Dmain={prefix}_main", "-c", "-o", objects[-1], parser]
            ran([compiler(), *words], "the compiler")
        main = f"{folder}/main.c"
        Path(main).write_text("int yy_main (void);\nint main (void) { return yy_main (); }\n")
        program = f"{folder}/both"
        ran([compiler(), "-o", program, main, *objects], "the compiler")
        if sums_of(program) != (CALCULATOR / "answers").read_bytes():
            raise Differs("two parsers in one program: other answers")


def compare_tutorial(ycc):
    """The program of the tutorial."""
    text = TUTORIAL.read_text()
    blocks, wanted = blocks_of(text), answer_to(text, "./answer < sums")
    files = {name: "".join(lines).encode() for kind, name, lines, _ in blocks if kind == "file"}
    with tempfile.TemporaryDirectory() as folder:
        file, parser, program = (f"{folder}/{it}" for it in ("sums.y", "sums.c", "sums"))
        Path(file).write_bytes(files["sums.y"])
        ran([ycc, "-o", parser, file], "ycc")
        ran([compiler(), *STRICT, "-o", program, parser], "the compiler")
        answers = ran([program], "the program of the tutorial", files["sums"])
    if answers != wanted:
        raise Differs(f"the tutorial: {answers.decode(errors='replace')}")


def examples(programs):
    """What is tried with the example, messages, and the program of the tutorial."""
    ycc = programs["ycc"]
    yield compare_tutorial, (ycc,)
    for grammar in grammars():
        for order in ([], ["--bison"]):
            yield compare_said, (grammar, programs, order)
    for compiler, language in compilers():
        for options in ([], ["-t"], ["-l"]):
            yield compare_calculator, (CALCULATOR, ycc, options, compiler, language)
        yield compare_calculator, (PUSHED, ycc, [], compiler, language)
    yield link_both, (ycc,)


def wrong(job):
    """The lines that say why a check fails; none where it doesn't."""
    check, *given = job
    try:
        check(*given)
        return []
    except Differs as differs:
        return [f"{differs}\n"]


def pairs_in(given):
    """The grammars and tokens of scenarios, and those that are drawn."""
    rng = random.Random(given.seed)
    # A file at the limit has no room for what reads its tokens.
    pairs = [it for it in dict.fromkeys(pairs_of_scenarios()) if len(it[0]) < LONGEST]
    return pairs + [pair_of(rng) for _ in range(given.drawn)]


def main(words):
    """Compares parsers with `ystep`."""
    given = asked(__doc__, words, ("yacc", "ystep", "ycc", "ydebug"), seed=1, drawn=40)
    tally, ycc = Tally(), given.programs["ycc"]
    makers = {name: given.programs[name] for name in ("yacc", "ystep")}
    found = by_grammar(pairs_in(given), makers)
    jobs = [(compare, grammar, cases, ycc) for grammar, cases in found.items()]
    jobs += [(compare_lists, grammar, cases, given.programs) for grammar, cases in found.items()]
    jobs += [(check, *more) for check, more in examples(given.programs)]
    with ThreadPoolExecutor(os.cpu_count()) as pool:
        for job, lines in zip(jobs, pool.map(wrong, jobs)):
            tally.take(job[0].__name__, lines)
    count = sum(map(len, found.values()))
    print(f"{len(found)} grammars, {count} lists of tokens, {len(jobs) - len(found)} builds")
    if not count:
        tally.take("lists of tokens", ["there is none\n"])
    return tally.end()
