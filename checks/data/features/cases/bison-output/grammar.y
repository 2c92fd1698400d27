%output "named.c"
%defines
%define api.header.include {"named.h"}
%{
#include "plain.h"
%}
%token NUMBER
%%
all : NUMBER          { printf ("%s %d\n", __FILE__, $1); }
    ;
%%
#include "named.h"
#include "plain_tail.h"
