%define parse.error verbose
%code { int more (void); }
%{
#include "plain.h"
%}
%token NUMBER 500 OTHER
%%
all : NUMBER          { printf ("%d\n", $1 + more ()); }
    | OTHER
    ;
%%
#include "plain_tail.h"
