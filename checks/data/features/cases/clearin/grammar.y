%{
#include "plain.h"
%}
%token NUMBER
%%
all :
    | all line
    ;
line : sum ';'      { printf ("sum %d, ahead %d\n", $1, yychar == YYEMPTY); }
     | error
       { printf ("wrong at %d\n", yychar == YYEMPTY ? -99 : yychar); yyclearin; yyerrok; }
     ;
sum : NUMBER        { printf ("first, ahead %d\n", yychar == YYEMPTY); }
    | sum '+' NUMBER    { $$ = $1 + $3; }
    ;
%%
#include "plain_tail.h"
