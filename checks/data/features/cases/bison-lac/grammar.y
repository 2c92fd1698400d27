%define parse.error verbose
%define parse.lac full
%{
#include "plain.h"
%}
%token NUMBER
%left '+' '-'
%left '*'
%%
all : sum             { printf ("sum %d\n", $1); }
    ;
sum : NUMBER
    | sum '+' sum     { $$ = $1 + $3; }
    | sum '-' sum     { $$ = $1 - $3; }
    | sum '*' sum     { $$ = $1 * $3; }
    | '(' sum ')'     { $$ = $2; }
    | '[' sum ']'     { $$ = $2; }
    ;
%%
#include "plain_tail.h"
