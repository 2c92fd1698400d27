%define parse.error verbose
%define parse.trace
%locations
%{
#include "plain.h"
%}
%token NUMBER
%destructor { printf ("free %d\n", $$); } <>
%printer { fprintf (yyo, "%d", $$); } <>
%%
all : NUMBER NUMBER   { $$ = 0; printf ("numbers %d %d\n", $1, $2); }
    ;
%%
#include "plain_tail.h"
