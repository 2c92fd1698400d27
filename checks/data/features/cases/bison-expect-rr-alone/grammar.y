%require "3.0"
%expect-rr 7
%{
#include "plain.h"
%}
%token NUMBER
%%
all : one | two ;
one : NUMBER          { printf ("one %d\n", $1); }
    ;
two : NUMBER          { printf ("two %d\n", $1); }
    ;
%%
#include "plain_tail.h"
