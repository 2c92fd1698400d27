%{
#include "lexer.h"
static int yylex (int *count);
static void yyerror (int *count, char const *name, int factors[2], const char *what);
%}
%parse-param { int *count } {char const *name}
%parse-param {int factors[2]}
%lex-param {int *count}
%token NUMBER
%%
all : sum             { printf ("%s: sum %d, %d\n", name, $1 * factors[1], *count); }
    ;
sum : NUMBER
    | sum '+' NUMBER  { $$ = $1 + $3; }
    ;
%%
static int yylex (int *count)
{
  int sign = read_sign ();

  ++*count;
  if (IS_DIGIT (sign))
    {
      yylval = sign - '0';
      return NUMBER;
    }
  return sign == '\n' ? 0 : sign;
}
static void yyerror (int *count, char const *name, int factors[2], const char *what)
{
  printf ("%s said: %s, %d %d\n", name, what, *count, factors[0]);
}
int main (void)
{
  int factors[2] = { 5, 7 }, count = 0, ended = yyparse (&count, "a name", factors);
  return ended;
}
