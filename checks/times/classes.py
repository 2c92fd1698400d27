"""Compares parsers in C++ that `ycc` and bison make of the same grammars, over the same tokens.

    bench-classes [--counts] [yacc=PATH] [ycc=PATH] [FILE..]

For a calculator, the grammar of C of checks/data/times/c.y and each FILE, with values of several
types, by -O2, without a lexer: nanoseconds a token of each parser, the least of many runs by turns,
and how many bytes the code and the tables of each take, that of the library's templates too. A
token has a number, a nonterminal a text, which is that of the first symbol of a rule or none. With
`--counts` instructions stand in place of times, as valgrind counts them: they are the same on a
busy machine. Needs bison, a C++ compiler (CXX, or c++) and nm.
"""
import os
import re
import tempfile
from pathlib import Path

from checks.shared import running
from checks.shared.arguments import asked
from checks.shared.places import DATA
from checks.shared.spelling import bare
from checks.shared.table_file import table_of
from checks.times.parsers import CALCULATOR, tokens_of

TURNS, LOOPS = 25, 9
MAKERS = {"ycc": ["ycc", "--bison"], "bison": ["bison"]}
HEADINGS = ["grammar", "ycc", "bison", "ratio", "bytes: ycc", "bison", "ratio"]
COLLECTED = re.compile(r"Collected : (\d+)")

FRONT = """%%language "c++"
%%define api.value.type variant
%%code requires {
#include <string>
}
%%code {
static int yylex (yy::parser::value_type *value);
}
%%type <int> %s
%%type <std::string> %s
"""

TAIL = """
%%%%
#include <chrono>
#include <cstdio>
#include <cstdlib>

typedef yy::parser::token token;
static const int input[] = { %s 0 };
static const int *next;

static int
yylex (yy::parser::value_type *value)
{
  if (*next)
    value->emplace<int> (1);
  return *next++;
}

void
yy::parser::error (const std::string &)
{
  if (next != input + sizeof input / sizeof *input)
    std::exit (1);
}

int
main (int, char **words)
{
  double least = 1e30;
  for (int turn = std::atoi (words[1]); turn > 0; turn--)
    {
      next = input;
      const auto from = std::chrono::steady_clock::now ();
      yy::parser ().parse ();
      const auto to = std::chrono::steady_clock::now ();
      const double took = std::chrono::duration<double, std::nano> (to - from).count ();
      if (took < least)
        least = took;
    }
  std::printf ("%%f\\n", least / (double) (sizeof input / sizeof *input - 1));
  return 0;
}
"""


def run(*words, cwd=None):
    """What a program writes, which ends well."""
    return running.ran(words, cwd, check=True)


def with_types(table, text, tokens):
    """A grammar whose symbols have types, with the tokens that it is given."""
    own = table.names[2 : table.tokens]
    others = [it for it in table.names[table.tokens :] if not it.startswith("$")]
    named = re.sub(r"(?m)^(?=\w)", "token::", tokens)
    return FRONT % (" ".join(own), " ".join(others)) + text + TAIL % named


def build(folder, ycc, text):
    """The parser of each generator."""
    Path(f"{folder}/g.y").write_text(text)
    compiler = [os.environ.get("CXX", "c++"), "-std=c++11", "-O2", "-w"]
    for name, (program, *options) in MAKERS.items():
        maker = ycc if program == "ycc" else program
        run(maker, *options, "-Wnone", "-o", f"{name}.cc", "g.y", cwd=folder)
        run(*compiler, "-c", f"{name}.cc", cwd=folder)
        run(*compiler, "-o", name, f"{name}.o", cwd=folder)


def bytes_of(folder, name):
    """How many bytes the code and the constants of a parser take, but those of its tokens."""
    rows = [it.split() for it in run("nm", "-S", f"{name}.o", cwd=folder).stdout.splitlines()]
    rows = [it for it in rows if len(it) == 4 and it[2] in "tTwWrRvV" and "input" not in it[3]]
    return sum(int(it[1], 16) for it in rows)


def nanoseconds(program):
    """The time that a parser takes for a token, the least of some loops."""
    return float(run(program, str(LOOPS)).stdout)


def instructions(program, tokens):
    """The instructions that a parser takes for a token: those of a second loop."""
    room = str(Path(program).parent / "counts")
    words = ["valgrind", "--tool=callgrind", f"--callgrind-out-file={room}", program]
    first, second = (int(COLLECTED.search(run(*words, it).stderr)[1]) for it in "12")
    return (second - first) / tokens


def measured(given, text):
    """The time or the instructions of each parser, and its bytes."""
    with tempfile.TemporaryDirectory() as folder:
        tokens = tokens_of(given.programs["yacc"], folder, text)
        table = table_of(Path(f"{folder}/plain.tab").read_bytes())
        build(folder, given.programs["ycc"], with_types(table, text, tokens))
        programs = {it: f"{folder}/{it}" for it in MAKERS}
        if given.counts:
            many = tokens.count("\n")
            spent = {it: instructions(path, many) for it, path in programs.items()}
        else:
            turns = [[nanoseconds(it) for it in programs.values()] for _ in range(TURNS)]
            spent = dict(zip(MAKERS, map(min, zip(*turns))))
        return spent, {it: bytes_of(folder, it) for it in MAKERS}


def row(name, spent, sizes):
    """A line of the table."""
    cells = [f"{spent[it]:.1f}" for it in MAKERS] + [f"{spent['ycc'] / spent['bison']:.2f}"]
    cells += [f"{sizes[it]:,}" for it in MAKERS] + [f"{sizes['ycc'] / sizes['bison']:.2f}"]
    return f"| {' | '.join([name, *cells])} |"


def grammars_of(files):
    """The texts of all grammars, by their names."""
    yield "calculator", CALCULATOR.encode()
    yield "C", (DATA / "times/c.y").read_bytes()
    yield from ((Path(file).stem, Path(file).read_bytes()) for file in files)


def main(words):
    """Measures the parsers of all grammars."""
    given = asked(__doc__, words, ("yacc", "ycc"), counts=False)
    print(f"| {' | '.join(HEADINGS)} |\n|{'---|' * len(HEADINGS)}")
    for name, text in grammars_of(given.words):
        print(row(name, *measured(given, bare(text, b"").decode())), flush=True)
