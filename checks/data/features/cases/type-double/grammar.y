%{
#define YYSTYPE double
#include "plain.h"
%}
%token NUMBER
%%
all : sum             { printf ("sum %.2f\n", $1); }
    ;
sum : NUMBER          { $$ = $1 / 4; }
    | sum '+' NUMBER  { $$ = $1 + $3; }
    ;
%%
#include "plain_tail.h"
