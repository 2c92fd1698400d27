%{
#include "lexer.h"
%}
%code {
static int calc_lex (int *value);
static void calc_error (const char *what);
}
%token NUMBER
%%
all : sum             { printf ("sum %d, %d %d\n", $1, YYPURE, CALC_DEBUG); }
    ;
sum : NUMBER
    | sum '+' NUMBER  { $$ = $1 + $3; }
    ;
%%
static int calc_lex (int *value)
{
  int sign = read_sign ();

  *value = sign - '0';
  return sign == '\n' ? 0 : sign == '+' ? '+' : NUMBER;
}
static void calc_error (const char *what)
{
  printf ("said: %s\n", what);
}
int main (void)
{
  return calc_parse ();
}
