%{
#include "lexer.h"
static int yylex (void);
static void yyerror (int *into, const char *name, int factor, const char *what);
%}
%parse-param { int *into, const char *name, int factor }
%token NUMBER
%%
all : sum             { *into = $1 * factor; printf ("%s: %d\n", name, $1); }
    ;
sum : NUMBER
    | sum '+' NUMBER  { $$ = $1 + $3; }
    ;
%%
static int yylex (void)
{
  int sign = read_sign ();

  if (IS_DIGIT (sign))
    {
      yylval = sign - '0';
      return NUMBER;
    }
  return sign == '\n' ? 0 : sign;
}
static void yyerror (int *into, const char *name, int factor, const char *what)
{
  *into = -1;
  printf ("%s %d said: %s\n", name, factor, what);
}
int main (void)
{
  int it = 0, ended = yyparse (&it, "a name", 10);
  printf ("ended %d with %d\n", ended, it);
  return ended;
}
