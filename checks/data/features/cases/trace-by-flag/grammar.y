%{
#include "plain.h"
%}
%token NUMBER
%%
all : sum             { yydebug = 0; printf ("sum %d, trace %d %d\n", $1, YYDEBUG, yydebug); }
    ;
sum : NUMBER
    | sum '+' NUMBER  { $$ = $1 + $3; }
    ;
%%
#include "plain_tail.h"
