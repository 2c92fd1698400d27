%define parse.error verbose
%define lr.default-reduction consistent
%define parse.lac full
%{
#include "plain.h"
%}
%token NUMBER
%%
all : '{' sum '}'     { printf ("braces %d\n", $2); }
    | '[' sum ']'     { printf ("brackets %d\n", $2); }
    ;
sum : one             { printf ("sum\n"); }
    ;
one : NUMBER          { printf ("one\n"); }
    | one '+' NUMBER  { printf ("plus\n"); $$ = $1 + $3; }
    ;
%%
#include "reads_tail.h"
