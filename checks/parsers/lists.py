"""The tokens that a parser with LAC lists at an error, against those of `ydebug check`."""
import json
import tempfile
from pathlib import Path

from checks.parsers import messages
from checks.scenarios import proved
from checks.shared import running
from checks.shared.libraries import compiler
from checks.shared.spelling import bare
from checks.shared.table_file import table_of

# Exact detection, and a report of the user's own, which lists all tokens.
WORDS = ["--bison", "-Dlr.default-reduction=consistent", "-Dparse.lac=full"]
WORDS += ["-Dparse.error=custom", "-Wnone"]

HEAD = b"""%{
#include <stdio.h>
#include <stdlib.h>
static int yylex (void);
static void yyerror (const char *what);
#define YYSTYPE int
#define YYMAXDEPTH 1000000
%}
"""

TAIL = b"""
%%
static void yyerror (const char *what)
{
  (void) what;
}

static int yyreport_syntax_error (const yypcontext_t *context)
{
  yysymbol_kind_t kinds[YYNTOKENS];
  int count = yypcontext_expected_tokens (context, kinds, YYNTOKENS);
  int each;
  printf ("=");
  for (each = 0; each < count; each++)
    printf (" %d", (int) kinds[each]);
  exit (fflush (stdout) ? 3 : 0);
}

static int yylex (void)
{
  int token, number;
  if (scanf ("%d", &token) != 1)
    return 0;
  for (number = 0; number <= YYMAXTOKEN; number++)
    if ((int) yytranslate[number] == token)
      return number;
  exit (6);
}

int main (void)
{
  return yyparse ();
}
"""


def parser_of(folder, grammar, ycc):
    """The parser of a grammar."""
    file, parser, program = (f"{folder}/{it}" for it in ("grammar.y", "parser.c", "parser"))
    Path(file).write_bytes(HEAD + bare(grammar) + TAIL)
    for words in (
        [ycc, *WORDS, "-o", parser, file],
        [compiler(), "-w", "-o", program, parser],
    ):
        made = running.ran(words)
        if made.returncode:
            return None, made.stderr
    return program, ""


def told_of(grammar, lists, programs):
    """What `ydebug check` expects in place of the wrong token of each list, and of which tokens it
    can't tell."""
    files = {"grammar": grammar}
    for number, names in enumerate(lists):
        files[f"input{number}"] = f"{' '.join(names)}\n".encode()
    words = ["ydebug", "check", "--format", "json", "grammar", *list(files)[1:]]
    run = messages.told_by(proved, programs, [messages.run_of(words, files)])[0]
    return [(it["expected"], it["unknown"]) for it in json.loads(run["stdout"])["inputs"]]


def difference(grammar, cases, programs):
    """What differs over the lists of tokens of a grammar that are refused; nothing if nothing."""
    lists = [(table, names) for table, names, steps, *_ in cases if " detect\n" in steps]
    if not lists:
        return ""
    wanted = told_of(grammar, [names for _, names in lists], programs)
    with tempfile.TemporaryDirectory() as folder:
        program, why = parser_of(folder, grammar, programs["ycc"])
        if program is None:
            return why
        for (table, names), (expected, unknown) in zip(lists, wanted, strict=True):
            if unknown:
                # It tries a token without end where rules derive themselves, as bison's does.
                continue
            known = table_of(table)
            kinds = {name: kind for kind, name in enumerate(known.names[: known.tokens])}
            given = " ".join(str(kinds[name]) for name in names)
            said = running.ran([program], given=given).stdout.partition("=")[2].split()
            # A parser has the tokens in bison's order.
            made = sorted(known.names[int(kind)] for kind in said)
            if made != sorted(expected):
                return f"{grammar.decode()}\n{names}\nydebug:\n{expected}\nthe parser:\n{made}"
    return ""
