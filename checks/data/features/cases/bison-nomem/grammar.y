%require "3.8"
%{
#include "plain.h"
%}
%token NUMBER
%destructor { printf ("free %d\n", $$); } NUMBER sum
%%
all : sum             { printf ("sum %d\n", $1); }
    ;
sum : one
    | sum '+' one     { $$ = $1 + $3; }
    ;
one : NUMBER          { if ($1 == 9) YYNOMEM; $$ = $1; }
    ;
%%
#include "plain_tail.h"
