%define lr.default-reduction consistent
%{
#include "plain.h"
%}
%token NUMBER
%%
all : sum ';'         { printf ("sum %d\n", $1); }
    ;
sum : one
    | sum '+' one     { printf ("plus\n"); $$ = $1 + $3; }
    ;
one : NUMBER          { printf ("one %d\n", $1); $$ = $1; }
    ;
%%
#include "plain_tail.h"
