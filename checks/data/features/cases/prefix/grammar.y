%{
#include <stdio.h>
int yylex (void);
void yyerror (const char *what);
%}
%union {
  int number;
  char letter;
}
%token <number> NUMBER
%token <letter> LETTER
%type <number> sum
%%
all : sum             { printf ("sum %d, %d\n", $1, yychar == YYEMPTY); }
    ;
sum : NUMBER
    | sum '+' NUMBER  { $$ = $1 + $3; }
    | sum '+' LETTER  { $$ = $1 * 100 + $3; }
    ;
%%
int main (void)
{
  int ended = yyparse ();
  printf ("ended %d %d, errors %d\n", ended, sizeof calc_lval == sizeof (YYSTYPE),
          calc_nerrs);
  return ended;
}
