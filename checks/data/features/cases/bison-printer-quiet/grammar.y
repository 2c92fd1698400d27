%token-table
%{
#include "plain.h"
%}
%token NUMBER
%printer { fprintf (yyo, "%d", $$); } NUMBER
%%
all : NUMBER NUMBER   { printf ("numbers %d %d\n", $1, $2); }
    ;
%%
#include "plain_tail.h"
