"""Compares parsers in C++ that `ycc` makes with those in C, and builds examples in C++.

    classes [--few] [--seed N] [--drawn N] [--jobs N] [ycc=PATH]

Over the grammars and tokens of scenarios, of which each fourth is taken, and over N grammars drawn
at random (40), the parser in C++ makes the steps of the one in C, under the default reductions of
bison or of the tables alone, with places or without. Both are compiled with sanitizers, the one in
C++ without a warning. The calculator of examples/calculator-cc is built as C++11 and C++17 by each
compiler that is there, without a warning, and answers as it should. Where bison and its examples
are there, with xsltproc, by which bison writes pages, those in C++, which have values of several
types, and those into which tokens are pushed are built by their own makefiles, unchanged, with
bison and with ycc: they say the same, and have the same reports and graphs beside them. With
`--few` each 64th grammar of scenarios is taken, and of examples the calculator, built in one way.
The last line is `N passed, M failed`.
"""
import itertools
import os
import random
import re
import shutil
import tempfile
import zlib
from concurrent.futures import ThreadPoolExecutor
from pathlib import Path

from checks.parsers.pairs import pairs_of_scenarios
from checks.shared import running
from checks.shared.arguments import asked
from checks.shared.grammars import pair_of
from checks.shared.libraries import compiler
from checks.shared.places import EXAMPLES
from checks.shared.reader import Fault
from checks.shared.spelling import bare, names_of
from checks.shared.tally import Tally

CALCULATOR = EXAMPLES / "calculator-cc"
PEERS = Path("/usr/share/doc/bison/examples")
CLASSES = "calc++", "simple", "variant", "variant-11"
CHECKED = ["-fsanitize=address,undefined", "-fno-sanitize-recover=all"]
STRICT = ["-Wall", "-Wextra", "-pedantic", "-Werror"]
COMPILERS = ["g++", "clang++"]
LANGUAGES = ["-std=c++11", "-std=c++17"]
LONGEST = 100_000

# What bison's calculator in C++ reads, and the lines that those get into which tokens are pushed.
READ = "1 + 2 * 3", "a := 2\n(one + two * a) / a", "1 + * 2", "(1", "1 # 2", "", "9999999999"
SUMS = b"1 + 2 * 3\n(1 + 2) * 3\n1 + * 2\n-4 ^ 2\n(1\n1 / 0\n1 /\n"
TYPED = b"1 + 2 * 3\na = 256\nsqrt (a)\n1 + * 2\n(1 + \n)\n1 2\n# it\n0 / 0\nsin (\nquit\n"
# Each of these: its program, and what it reads.
PUSHED = {"pushcalc": ("calc", SUMS), "bistromathic": ("bistromathic", TYPED)}
# What is compared of what stands beside a parser; the first line of a graph names its maker.
BESIDE = "*.output", "*.gv"
MAKER = re.compile(rb"\A(?://.*\n)+")
READLINE = Path("/usr/include/readline/readline.h")

# Each of so many grammars of scenarios is taken, and where few are.
SHARE, FEW = 4, 64
# How a parser in C ends whose stack is full, as that of one in C++ never is, and one that gets a
# name that is no token.
BEYOND = 4, 6
MOST = 20_000
# Its last symbol is an action within a body, whose kind needs a bit more than those before it.
INNER = b"%%\ns : t 'a' ;\nt : u 'b' ;\nu : 'a' { } 'b' ;\n", b"'a' 'b' 'b' 'a'\n"

FRONT = b"""%{
#include <stdio.h>
#include <stdlib.h>
#include <string.h>
static void said (int kind, int number);
#define YYSTEP(kind, number) said (kind, number)
#define YYSTYPE int
"""

TAIL = b"""
static void said (int kind, int number)
{
  static int steps;
  if (printf ("%%c %%d\\n", kind, number) < 0 || ++steps == %d)
    exit (fflush (stdout) ? 3 : 0);
}

static int next_number (void)
{
  static char name[100000];
  int kind;
  int number;
  if (!fgets (name, sizeof name, stdin))
    return 0;
  name[strcspn (name, "\\n")] = 0;
  for (kind = 0; yytname[kind] && strcmp (yytname[kind], name); kind++)
    ;
  for (number = 0; number <= YYMAXTOKEN; number++)
    if (yytranslate[number] == kind)
      return number;
  exit (6);
}
""" % MOST

# A parser in C tells some steps by the lexer's numbers.
KINDS = b"""  if (kind == 's' || kind == 'd' || kind == 'e')
    number = YYTRANSLATE (number);
"""

# The rest of a parser in C, and of one in C++ with a value and maybe a place.
IN_C = b"""
static int yylex (void) { return next_number (); }
static void yyerror (const char *what) { if (what[0] != 's') exit (4); }
int main (void)
{
  int ended = yyparse ();
  return ended == 0 || ended == 1 ? 0 : 5;
}
"""
IN_CXX = b"""
void yy::parser::error (%sconst std::string &what) { if (what[0] != 's') exit (4); }
int main ()
{
  yy::parser it;
  int ended = it.parse ();
  return ended == 0 || ended == 1 ? 0 : 5;
}
"""
PLACED = b"static int yylex (int *, yy::location *) { return next_number (); }\n"
PLAIN = b"static int yylex (int *) { return next_number (); }\n"


class Differs(Exception):
    """What a parser does that it should not."""


def ran(words, what, given=b"", folder=None):
    """What a program writes, which has to end well."""
    it = running.ran(words, folder, given)
    if it.returncode:
        raise Differs(f"{what} ended with {it.returncode}\n{it.stderr.decode(errors='replace')}")
    return it.stdout


def in_c(folder, grammar, ycc, options):
    """The parser in C; nothing where the grammar is refused."""
    file, parser, program = (f"{folder}/{it}" for it in ("c.y", "c.c", "c"))
    declared = b"static int yylex (void);\nstatic void yyerror (const char *what);\n%}\n"
    # a directive of bison's, as in C++: what bison would do otherwise is refused in both
    declared += b"%code {\n}\n"
    said = TAIL.replace(b"  static int steps;\n", b"  static int steps;\n" + KINDS)
    Path(file).write_bytes(FRONT + declared + bare(grammar) + b"\n%%\n" + said + IN_C)
    if running.ran([ycc, "--bison", "-k", *options, "-Wnone", "-o", parser, file]).returncode:
        return None
    ran([compiler(), "-w", "-O1", *CHECKED, "-o", program, parser], "the compiler")
    return program


def in_cxx(folder, grammar, ycc, options):
    """The parser in C++."""
    file, parser, program = (f"{folder}/{it}" for it in ("cxx.y", "cxx.cc", "cxx"))
    places = "--locations" in options
    lexer = b"%}\n%code {\nstatic int next_number (void);\n"
    lexer += (PLACED if places else PLAIN) + b"}\n"
    rest = IN_CXX % (b"const location_type &, " if places else b"")
    Path(file).write_bytes(FRONT + lexer + bare(grammar) + b"\n%%\n" + TAIL + rest)
    ran([ycc, "-L", "c++", "--bison", "-k", *options, "-Wnone", "-o", parser, file], "ycc")
    ran(["g++", "-std=c++11", *STRICT, "-O0", *CHECKED, "-o", program, parser], "the compiler")
    return program


def compare(grammar, lists, ycc):
    """The parsers of a grammar on each of its lists of tokens."""
    drawn = zlib.crc32(grammar)
    options = ["--locations"] * (drawn // SHARE % 2)
    options += ["-Dlr.default-reduction=consistent"] * (drawn // SHARE // 2 % 2)
    with tempfile.TemporaryDirectory() as folder:
        first = in_c(folder, grammar, ycc, options)
        if not first:
            return
        second = in_cxx(folder, grammar, ycc, options)
        for names in lists:
            given = "".join(f"{it}\n" for it in names).encode()
            if running.ran([first], None, given).returncode in BEYOND:
                continue
            wanted, made = ran([first], "in C", given), ran([second], "in C++", given)
            if wanted != made:
                raise Differs(f"{grammar.decode()}\n{names}\nin C:\n{wanted}\nin C++:\n{made}")


def sums_of(program):
    """What the calculator answers to the sums of the example."""
    return ran([program], "the calculator", (CALCULATOR / "sums").read_bytes())


def compare_calculator(ycc, options, called, language):
    """The calculator, built in one way, on sums whose answers are known."""
    with tempfile.TemporaryDirectory() as folder:
        parser, program = f"{folder}/calc.cc", f"{folder}/calc"
        ran([ycc, *options, "-o", parser, str(CALCULATOR / "calc.yy")], "ycc")
        words = [called, language, *STRICT, "-O1", *CHECKED, "-o", program, parser]
        ran(words, f"{called} {language}")
        if sums_of(program) != (CALCULATOR / "answers").read_bytes():
            raise Differs(f"{called} {language} {options}")


def made(folder, maker, source, program):
    """An example of bison, built by its own makefile; and the reports and graphs beside it."""
    shutil.copytree(PEERS / source, folder, dirs_exist_ok=True)
    ran(["make", "-s", f"BISON={' '.join(maker)}", program], maker[0], folder=folder)
    beside = [it for form in BESIDE for it in sorted(Path(folder).glob(form))]
    if not list(Path(folder).glob("*.html")):
        raise Differs(f"{source}: there is no page")
    return [(it.name, MAKER.sub(b"", it.read_bytes())) for it in beside]


def one_file(folder, maker, name):
    """What an example of one file says."""
    beside = made(folder, maker, "c++", name)
    it = running.ran([f"./{name}"], folder)
    return it.returncode, it.stdout, it.stderr, beside


def calculators(folder, maker, name):
    """What bison's calculator says of some sums."""
    said = [made(folder, maker, f"c++/{name}", name)]
    for text in READ:
        Path(folder, "in").write_text(text)
        it = running.ran([f"./{name}", "in"], folder)
        said.append((text, it.returncode, it.stdout, it.stderr))
    return said


def pushed(folder, maker, name):
    """What an example into which tokens are pushed says of some lines."""
    program, lines = PUSHED[name]
    beside = made(folder, maker, f"c/{name}", program)
    it = running.ran([f"./{program}"], folder, lines)
    return it.returncode, it.stdout, it.stderr, beside


def compare_example(ycc, builder, name):
    """An example of bison, built by it and by ycc."""
    said = []
    for maker in (["bison"], [ycc, "--bison"]):
        with tempfile.TemporaryDirectory() as folder:
            said.append(builder(folder, maker, name))
    if said[0] != said[1]:
        raise Differs(f"{name}\nbison: {said[0]}\nycc: {said[1]}")


def examples(ycc):
    """What is tried with examples."""
    for called in filter(shutil.which, COMPILERS):
        for language in LANGUAGES:
            for options in ([], ["-t"]):
                yield compare_calculator, ycc, options, called, language
    if all(map(shutil.which, ("bison", "flex", "make", "xsltproc"))) and PEERS.is_dir():
        for name in CLASSES:
            yield compare_example, ycc, calculators if name == "calc++" else one_file, name
        for name in PUSHED:
            if name != "bistromathic" or READLINE.is_file():
                yield compare_example, ycc, pushed, name


def wrong(job):
    """The lines that say why a check fails; none where it doesn't."""
    check, *given = job
    try:
        check(*given)
        return []
    except Differs as differs:
        return [f"{differs}\n"]


def is_plain(grammar):
    """Whether a grammar is a file for yacc, whose declarations and rules another file can have."""
    try:
        bare(grammar)
    except Fault:
        return False
    return True


def by_grammar(given):
    """The lists of tokens of each grammar."""
    rng = random.Random(given.seed)
    pairs = [it for it in dict.fromkeys(pairs_of_scenarios()) if len(it[0]) < LONGEST]
    pairs = [it for it in pairs if is_plain(it[0])]
    pairs = [it for it in pairs if zlib.crc32(it[0]) % (FEW if given.few else SHARE) == 0]
    pairs += [INNER, *(pair_of(rng) for _ in range(given.drawn))]
    found = {}
    for grammar, tokens in pairs:
        found.setdefault(grammar, []).append(names_of(tokens))
    return found


def main(words):
    """Compares parsers in C++ with those in C."""
    jobs = os.cpu_count()
    given = asked(__doc__, words, ("ycc",), few=False, seed=1, drawn=40, jobs=jobs)
    tally, ycc = Tally(), given.programs["ycc"]
    jobs = [(compare, grammar, lists, ycc) for grammar, lists in by_grammar(given).items()]
    jobs += itertools.islice(examples(ycc), 1 if given.few else None)
    with ThreadPoolExecutor(given.jobs) as pool:
        for job, lines in zip(jobs, pool.map(wrong, jobs)):
            tally.take(job[0].__name__, lines)
    return tally.end()
