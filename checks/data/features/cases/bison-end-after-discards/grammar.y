%require "3.0"
%{
#include "plain.h"
%}
%token NUMBER
%%
/* Tokens are discarded where the start symbol is complete, and then the end comes. */
all : NUMBER
    | error
    ;
%%
#include "plain_tail.h"
