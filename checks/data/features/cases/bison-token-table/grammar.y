%require "3.0"
%token-table
%{
#include <string.h>
#include "plain.h"
static int token_of (const char *text);
%}
%token NUMBER "a number" WORD PLUS "+=" MINUS "-=" LAST
%token OTHER
%%
all : NUMBER          { printf ("%d %d\n", token_of ("+=") == YYTRANSLATE (PLUS), token_of ("*=")); }
    | WORD ">>=" LAST "\"\\" 'x'
    ;
%%
static int token_of (const char *text)
{
  int at;
  size_t length = strlen (text);

  for (at = 0; at < YYNTOKENS; at++)
    if (yytname[at] != 0 && yytname[at][0] == '"'
        && strncmp (yytname[at] + 1, text, length) == 0
        && yytname[at][length + 1] == '"' && yytname[at][length + 2] == 0)
      return at;
  return -1;
}
static void show_all (void)
{
  int at;

  for (at = 0; yytname[at]; at++)
    if (strcmp (yytname[at], "\"invalid token\"") != 0)
      printf ("%s\n", yytname[at]);
  printf ("%d rules, %d nonterminals\n", YYNRULES, YYNNTS);
}
#define main plain
int main (void);
#include "plain_tail.h"
#undef main
int main (void)
{
  show_all ();
  return plain ();
}
