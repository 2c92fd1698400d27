%define parse.error verbose
%{
#include "plain.h"
%}
%token YYEOF 0 "end of file" NUMBER
%%
all : NUMBER NUMBER   { printf ("%d\n", $1 + $2); }
    ;
%%
#include "plain_tail.h"
