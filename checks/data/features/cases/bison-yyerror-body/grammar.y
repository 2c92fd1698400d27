%{
#include "plain.h"
%}
%token NUMBER
%destructor { printf ("free %d\n", $$); } NUMBER sum group
%%
all : %empty
    | all group ';'   { printf ("group %d\n", $2); }
    | all error ';'   { printf ("outer, errors %d\n", yynerrs); yyerrok; }
    ;
group : NUMBER        { $$ = $1; }
      | '(' sum ')'   { $$ = $2; if ($2 >= 9) { printf ("too much\n"); YYERROR; } }
      | '(' error ')' { $$ = -1; printf ("inner, errors %d\n", yynerrs); }
      ;
sum : group
    | sum ',' group   { $$ = $1 + $3; }
    ;
%%
#include "plain_tail.h"
