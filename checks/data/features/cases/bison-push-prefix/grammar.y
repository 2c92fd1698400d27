%define api.pure full
%define api.push-pull both
%define api.prefix {sum_}
%locations
%code provides {
int sum_lex (SUM_STYPE *value, SUM_LTYPE *place);
void sum_error (SUM_LTYPE *place, const char *what);
}
%code {
#include <stdio.h>
}
%token NUMBER
%%
all : sum             { printf ("sum %d, errors %d\n", $1, yynerrs); }
    ;
sum : NUMBER
    | sum '+' NUMBER  { $$ = $1 + $3; }
    ;
