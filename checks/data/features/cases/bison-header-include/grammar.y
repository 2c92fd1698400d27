%define api.header.include {"mine.h"}
%{
#include "plain.h"
%}
%token NUMBER
%%
all : NUMBER          { printf ("%d %s\n", $1, MINE); }
    ;
%%
#include "plain_tail.h"
