%define api.prefix {one_}
%define api.token.prefix {ONE_}
%define api.pure full
%locations
%code {
#include <stdio.h>
int one_lex (ONE_STYPE *value, ONE_LTYPE *place);
void one_error (ONE_LTYPE *place, const char *what);
}
%union { int number; }
%token <number> NUMBER
%%
all : NUMBER NUMBER   { printf ("one: %d %d at %d\n", $1, $2, @2.last_column); }
    ;
