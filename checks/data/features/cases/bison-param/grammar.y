%define api.pure full
%param { int *count } { int step }
%parse-param { const char *name }
%lex-param { last }
%code {
#include "lexer.h"
static int last = 1000;
static int yylex (YYSTYPE *value, int *count, int step, int more);
static void yyerror (int *count, int step, const char *name, const char *what);
}
%token NUMBER
%%
all : sum             { printf ("%s: sum %d, step %d\n", name, $1, step); }
    ;
sum : NUMBER
    | sum '+' NUMBER  { $$ = $1 + $3; ++*count; }
    ;
%%
static int yylex (YYSTYPE *value, int *count, int step, int more)
{
  int sign = read_sign ();

  *count += step;
  if (IS_DIGIT (sign))
    {
      *value = sign - '0' + more;
      return NUMBER;
    }
  return sign == '\n' ? 0 : sign;
}
static void yyerror (int *count, int step, const char *name, const char *what)
{
  printf ("%s said: %s, %d %d\n", name, what, *count, step);
}
int main (void)
{
  int count = 0, ended = yyparse (&count, 10, "a name");
  printf ("ended %d, count %d\n", ended, count);
  return ended;
}
