%define api.prefix {calc_}
%locations
%debug
%code {
#include <stdio.h>
int calc_lex (void);
void calc_error (const char *what);
}
%union {
  int number;
}
%token <number> NUMBER
%type <number> sum
%%
all : sum             { printf ("sum %d, %d, %d\n", $1, @1.first_column, yychar == CALC_EMPTY); }
    ;
sum : NUMBER
    | sum '+' NUMBER  { $$ = $1 + $3; }
    ;
%%
int main (void)
{
  int ended = calc_parse ();
  printf ("ended %d, errors %d, trace %d\n", ended, calc_nerrs, calc_debug + CALC_DEBUG);
  return ended;
}
