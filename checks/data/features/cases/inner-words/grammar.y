%{
#include "plain.h"
%}
%token NUMBER
%%
all :
    | all line ';'    { printf ("line %d\n", $2); }
    | all error ';'   { printf ("recovered, errors %d\n", yynerrs); yyerrok; }
    ;
line : NUMBER one { if ($2 == 7) YYERROR; if ($2 == 8) YYACCEPT; if ($2 == 9) YYABORT; $$ = $1; }
       rest           { $$ = $1 * 10 + $2; }
     ;
one : NUMBER
    ;
rest :
     ;
%%
#include "plain_tail.h"
