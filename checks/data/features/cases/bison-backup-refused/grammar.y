%{
#include "plain.h"
%}
%token NUMBER
%%
all : lines
    ;
lines : line
      | lines line
      ;
line : sum ';'        { printf ("sum %d\n", $1); }
     | error ';'      { printf ("recovered, errors %d\n", yynerrs); }
     ;
sum : one
    | sum '+' one     { $$ = $1 + $3; }
    | one ',' one     { $$ = 10 * $1 + $3; }
    ;
one : NUMBER one_end  { $$ = $1; }
    ;
one_end : %empty      { if (yychar == ',') { YYBACKUP (NUMBER, 5); } $$ = 0; }
    ;
%%
#include "plain_tail.h"
