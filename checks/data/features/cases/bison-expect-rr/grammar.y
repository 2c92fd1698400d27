%require "3.0"
%expect 0
%expect-rr 1
%{
#include "plain.h"
%}
%token NUMBER
%left '+' '-'
%%
all : sum             { printf ("= %d\n", $1); }
    ;
sum : NUMBER
    | sum '+' sum     { $$ = $1 + $3; }
    | sum '-' sum     { $$ = $1 - $3; }
    ;
%%
#include "plain_tail.h"
