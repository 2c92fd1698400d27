%pure-parser
%parse-param { int *count }
%{
#include "lexer.h"
static int yylex (int *value);
static void yyerror (int *count, const char *what);
%}
%token NUMBER
%%
all : sum             { printf ("sum %d\n", $1); }
    ;
sum : NUMBER
    | sum '+' NUMBER  { $$ = $1 + $3; ++*count; }
    ;
%%
static int yylex (int *value)
{
  int sign = read_sign ();

  if (IS_DIGIT (sign))
    {
      *value = sign - '0';
      return NUMBER;
    }
  return sign == '\n' ? 0 : sign;
}
static void yyerror (int *count, const char *what)
{
  printf ("said: %s, %d\n", what, *count);
}
int main (void)
{
  int count = 0, ended = yyparse (&count);
  printf ("ended %d, count %d\n", ended, count);
  return ended;
}
