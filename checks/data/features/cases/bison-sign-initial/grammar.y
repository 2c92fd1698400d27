%{
#include "plain.h"
%}
%initial-action { @$.first_line = 7; @$.last_line = 9; }
%token NUMBER OTHER
%%
all : NUMBER          { printf ("%d %d\n", NUMBER, yylloc.last_line); }
    | OTHER
    ;
%%
#include "plain_tail.h"
