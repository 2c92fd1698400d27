%{
#include "plain.h"
%}
%token NUMBER
%%
all : sum             { printf ("sum %d, trace %d %d\n", $1, YYDEBUG, yydebug); }
    | error '+'       { printf ("wrong\n"); }
    ;
sum : NUMBER
    | sum '+' NUMBER  { $$ = $1 + $3; }
    ;
%%
#include "plain_tail.h"
