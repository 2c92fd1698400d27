%{
#include <stdio.h>
#include "value.h"
extern int yylex (void);
extern void yyerror (const char *what);
extern int numbers (void);
%}
%union {
  int number;
  struct value value;
}
%token <number> NUMBER 500
%token <value> VALUE
%token PLUS 501
%type <number> sum
%%
all : sum             { printf ("sum %d, tokens %d\n", $1, numbers ()); }
    ;
sum : NUMBER
    | sum PLUS NUMBER { $$ = $1 + $3; }
    | sum PLUS VALUE  { $$ = $1 + $3.first + 2 * $3.second; }
    ;
%%
int main (void)
{
  return yyparse ();
}
