%{
#include "lexer.h"
struct sum { int all; };
static int yylex (void);
static void yyerror (struct sum *into, const char *name, int factor, const char *what);
%}
%parse-param { struct sum *into }
%parse-param { const char *name } { int factor }
%token NUMBER
%%
all : sum             { into->all = $1 * factor; printf ("%s: %d\n", name, $1); }
    ;
sum : NUMBER
    | sum '+' NUMBER  { $$ = $1 + $3; }
    ;
%%
static int yylex (void)
{
  int sign = read_sign ();

  if (IS_DIGIT (sign))
    {
      yylval = sign - '0';
      return NUMBER;
    }
  return sign == '\n' ? 0 : sign;
}
static void yyerror (struct sum *into, const char *name, int factor, const char *what)
{
  into->all = -1;
  printf ("%s %d said: %s\n", name, factor, what);
}
