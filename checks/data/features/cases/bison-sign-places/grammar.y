%{
#include "plain.h"
%}
%token NUMBER OTHER
%%
all : NUMBER          { printf ("%d, %d %d %d\n", @1.first_line, NUMBER, OTHER, YYUNDEF); }
    | OTHER
    ;
%%
#include "plain_tail.h"
