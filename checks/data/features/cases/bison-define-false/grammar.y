%define api.pure false
%define parse.trace false
%define lr.type lalr
%define lr.default-reduction most
%define lr.keep-unreachable-state false
%define api.push-pull pull
%define parse.lac none
%define parse.error simple
%language "C"
%skeleton "yacc.c"
%{
#include "plain.h"
%}
%token NUMBER
%%
all : sum             { printf ("sum %d, pure %d, trace %d\n", $1, YYPURE, YYDEBUG); }
    ;
sum : NUMBER
    | sum '+' NUMBER  { $$ = $1 + $3; }
    ;
%%
#include "plain_tail.h"
