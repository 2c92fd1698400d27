%define parse.error detailed
%{
#include "plain.h"
%}
%token NUMBER "??/"
%token PLUS '+' "??)?"
%%
all : NUMBER ';'      { printf ("number %d\n", $1); }
    | NUMBER PLUS "a??'" { printf ("sum %d\n", $1); }
    ;
%%
#include "plain_tail.h"
