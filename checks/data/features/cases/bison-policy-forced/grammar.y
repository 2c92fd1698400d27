%define parse.error verbose
%define lr.default-reduction most
%define parse.lac none
%{
#include "plain.h"
%}
%token NUMBER
%%
all : sum ';'         { printf ("sum %d\n", $1); }
    ;
sum : one             { printf ("first\n"); }
    | sum '+' one     { printf ("plus\n"); $$ = $1 + $3; }
    | '(' sum ')'     { printf ("brackets\n"); $$ = $2; }
    ;
one : NUMBER          { printf ("one %d\n", $1); }
    ;
%%
#include "reads_tail.h"
