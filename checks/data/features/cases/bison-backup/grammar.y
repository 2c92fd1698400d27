%{
#include "plain.h"
%}
%token NUMBER
%left '+'
%%
all : sum             { printf ("sum %d\n", $1); }
    ;
sum : one
    | sum '+' one     { $$ = $1 + $3; }
    ;
one : NUMBER
      {
        $$ = $1;
        if ($1 == 7)
          {
            printf ("again, %d\n", yychar == YYEMPTY);
            YYBACKUP (NUMBER, 5);
          }
      }
    ;
%%
#include "plain_tail.h"
