%{
#include "plain.h"
%}
%token NUMBER
%%
all : first-one NUMBER  { printf ("%d %d\n", $1 + $NUMBER, NUMBER); }
    ;
first-one : NUMBER      { $$ = 10 * $NUMBER; }
    ;
%%
#include "plain_tail.h"
