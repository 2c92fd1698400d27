%{
#include "plain.h"
%}
%token NUMBER
%start all
%%
one : NUMBER          { $$ = $1 + 1; }
    ;
all : one one         { printf ("%d\n", $1 * 10 + $2); }
    ;
%%
#include "plain_tail.h"
