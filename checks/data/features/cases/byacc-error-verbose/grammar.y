%{
#include "plain.h"
%}
%error-verbose
%debug
%token NUMBER "number"
%%
all : sum             { printf ("sum %d, trace %d\n", $1, YYDEBUG); }
    ;
sum : NUMBER
    | sum '+' NUMBER  { $$ = $1 + $3; }
    | sum '-' NUMBER  { $$ = $1 - $3; }
    ;
%%
#include "plain_tail.h"
