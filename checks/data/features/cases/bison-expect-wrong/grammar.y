%require "3.0"
%expect 3

%{
#include "plain.h"
%}
%token NUMBER

%%
all : sum             { printf ("= %d\n", $1); }
    ;
sum : NUMBER
    | sum '+' sum     { $$ = $1 + $3; }
    | sum '-' sum     { $$ = $1 - $3; }
    ;
%%
#include "plain_tail.h"
