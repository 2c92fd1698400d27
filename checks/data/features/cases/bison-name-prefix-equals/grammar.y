%name-prefix="calc_"
%{
#include "lexer.h"
int calc_lex (void);
void calc_error (const char *what);
%}
%token NUMBER
%%
all : sum             { printf ("sum %d\n", $1); }
    ;
sum : NUMBER
    | sum '+' NUMBER  { $$ = $1 + $3; }
    ;
%%
#include "parser.h"
int calc_lex (void)
{
  int sign = read_sign ();

  if (IS_DIGIT (sign))
    {
      calc_lval = sign - '0';
      return NUMBER;
    }
  return sign == '\n' ? 0 : sign;
}
void calc_error (const char *what)
{
  printf ("calc_error: %s\n", what);
}
int main (void)
{
  int ended = calc_parse ();
  printf ("ended %d, errors %d\n", ended, calc_nerrs);
  return ended;
}
