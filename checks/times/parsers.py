"""Times parsers that `ycc`, byacc and bison make of the same grammars, over the same tokens.

    bench-parsers [yacc=PATH] [ycc=PATH] [FILE..]

For a calculator, the grammar of C of checks/data/times/c.y, queries 275, and each FILE: nanoseconds
a token of each parser, by -O2, without a lexer and without actions, the least of runs by turns,
also of those that `ycc` makes under each policy of default reductions, the slowest of which is set
beside the faster of its peers, and of those with LAC that `ycc` and bison make; and the bytes of
tables. The tokens are a sentence of 30,000, drawn at random, as far as the
tables take it: precedences refuse some. So all parsers may find an error after the last.
Files have no kept texts but empty ones. Needs bison, byacc, a C compiler (CC, or cc) and nm.
"""
import itertools
import tempfile
from pathlib import Path

from checks.shared import running
from checks.shared.arguments import asked
from checks.shared.libraries import compiler
from checks.shared.places import DATA
from checks.shared.sentences import sentence_of
from checks.shared.spelling import bare
from checks.shared.table_file import table_of
from checks.times.grammars import queries

TOKENS, SENTENCES, TURNS, LOOPS = 30_000, 5, 25, 9
NONE = None, None
LAC, LAC_OF_BISON = "-Dparse.lac=full", "bison's LAC"
POLICIES = "consistent", "sole", "most"
PEERS = "byacc", "bison"
HEADINGS = ["grammar", "ycc", *POLICIES, *PEERS, "slowest of the faster", "LAC", LAC_OF_BISON]
HEADINGS += ["of it", "bytes: ycc", *PEERS, "of bison's"]

CALCULATOR = """%token NUM
%left '+' '-'
%left '*' '/'
%right SIGN
%%
lines : | lines sum ';' ;
sum : NUM | sum '+' sum | sum '-' sum | sum '*' sum | sum '/' sum
    | '-' sum %prec SIGN | '(' sum ')' ;
"""

HEAD = """%{
#define _POSIX_C_SOURCE 199309L
#include <stdio.h>
#include <stdlib.h>
#include <time.h>
#define YYMAXDEPTH 1000000
static int yylex (void);
static void yyerror (const char *what);
%}
"""

TAIL = """
%%%%
static const int input[] = { %s 0 };
static const int *next;

static int
yylex (void)
{
  return *next++;
}

static void
yyerror (const char *what)
{
  if (what[0] != 's' || next != input + sizeof input / sizeof *input)
    exit (1);
}

int
main (void)
{
  double least = 1e30;
  int turn;

  for (turn = 0; turn < %d; turn++)
    {
      struct timespec from, to;
      double took;
      next = input;
      clock_gettime (CLOCK_MONOTONIC, &from);
      yyparse ();
      clock_gettime (CLOCK_MONOTONIC, &to);
      took = 1e9 * (double) (to.tv_sec - from.tv_sec) + (double) (to.tv_nsec - from.tv_nsec);
      if (took < least)
        least = took;
    }
  printf ("%%f\\n", least / (double) (sizeof input / sizeof *input - 1));
  return 0;
}
"""


def run(*words, cwd=None):
    """What a program writes, which ends well."""
    return running.ran(words, cwd, check=True).stdout


def generators(ycc):
    """How each generator is asked for a parser."""
    policies = {it: [ycc, f"-Dlr.default-reduction={it}", "-o"] for it in POLICIES}
    plain = {"ycc": [ycc, "-o"], **policies, "byacc": ["byacc", "-o"], "bison": ["bison", "-o"]}
    return {**plain, "LAC": [ycc, LAC, "-o"], LAC_OF_BISON: ["bison", LAC, "-o"]}


class Machine:
    """A table, and the states of a stack."""

    def __init__(self, table):
        self.table = table
        self.stack = [0]

    def action(self, state, token):
        """What a state does on a token."""
        rule = self.table.defaults.get(state)
        return ("r", rule) if rule is not None else self.table.actions.get((state, token), NONE)

    def takes(self, token):
        """Makes the steps up to the shift of a token, and says whether it is shifted."""
        while True:
            kind, number = self.action(self.stack[-1], token)
            if kind == "s":
                self.stack.append(number)
                return True
            if kind != "r":
                return False
            left, length = self.table.rules[number]
            del self.stack[len(self.stack) - length :]
            self.stack.append(self.table.gotos[self.stack[-1], left])


def taken(table, words):
    """The words up to the first that the table doesn't take."""
    machine, tokens = Machine(table), {name: at for at, name in enumerate(table.names)}
    return list(itertools.takewhile(lambda word: machine.takes(tokens[word]), words))


def tokens_of(yacc, folder, text):
    """The tokens, as C has them: of some sentences, the one of which the table takes most."""
    Path(f"{folder}/plain.y").write_text(text)
    run(yacc, "-b", "plain", "plain.y", cwd=folder)
    table = table_of(Path(f"{folder}/plain.tab").read_bytes())
    drawn = (sentence_of(text.encode(), TOKENS, seed).split() for seed in range(1, SENTENCES + 1))
    words = max((taken(table, words) for words in drawn), key=len)
    return "".join(f"{word},\n" for word in words)


def bytes_of(folder, name):
    """How many bytes the constant tables of a parser take."""
    flags = ["-O0", "-w", "-fno-toplevel-reorder", "-c"]
    run(compiler(), *flags, f"{name}.c", "-o", f"{name}.o", cwd=folder)
    rows = [row.split() for row in run("nm", "-S", f"{name}.o", cwd=folder).splitlines()]
    rows = [row for row in rows if len(row) == 4 and row[2] == "r" and row[3].startswith("yy")]
    return sum(int(row[1], 16) for row in rows)


def build(folder, ycc, text, tokens):
    """The parser of each generator."""
    file = f"{folder}/g.y"
    Path(file).write_text(f"{HEAD}{text}" + TAIL % (tokens, LOOPS))
    for name, words in generators(ycc).items():
        run(*words, f"{folder}/{name}.c", file, cwd=folder)
        run(compiler(), "-O2", "-w", f"{name}.c", "-o", name, cwd=folder)


def measured(yacc, ycc, text):
    """The least time a token of each parser, and the bytes of its tables."""
    with tempfile.TemporaryDirectory() as folder:
        build(folder, ycc, text, tokens_of(yacc, folder, text))
        least = dict.fromkeys(generators(ycc), float("inf"))
        for _ in range(TURNS):
            for name in least:
                least[name] = min(least[name], float(run(f"{folder}/{name}")))
        return {name: (time, bytes_of(folder, name)) for name, time in least.items()}


def grammars_of(files):
    """The texts of all grammars, by their names."""
    yield "calculator", CALCULATOR.encode()
    yield "C", (DATA / "times/c.y").read_bytes()
    yield "queries 275", queries(275).encode()
    yield from ((Path(file).stem, Path(file).read_bytes()) for file in files)


def row(name, made):
    """A line of the table of times."""
    times = {it: time for it, (time, _) in made.items()}
    sizes = [made[it][1] for it in ("ycc", *PEERS)]
    slowest = max(times[it] for it in ("ycc", *POLICIES)) / min(times[it] for it in PEERS)
    cells = [name, *(f"{times[it]:.1f} ns" for it in ("ycc", *POLICIES, *PEERS)), f"{slowest:.2f}"]
    cells += [f"{times[it]:.1f} ns" for it in ("LAC", LAC_OF_BISON)]
    cells += [f"{times['LAC'] / times[LAC_OF_BISON]:.2f}", *(f"{it:,}" for it in sizes)]
    return f"| {' | '.join(cells)} | {sizes[0] / sizes[-1]:.2f} |"


def main(words):
    """Times the parsers of all grammars."""
    given = asked(__doc__, words, ("yacc", "ycc"))
    print(f"| {' | '.join(HEADINGS)} |")
    print(f"|{'---|' * len(HEADINGS)}")
    for name, text in grammars_of(given.words):
        plain = bare(text, b"").decode()
        print(row(name, measured(given.programs["yacc"], given.programs["ycc"], plain)), flush=True)
