%debug
%locations
%parse-param { int *into }
%code requires { struct state; }
%parse-param { struct state *state }
%code {
#include <stdio.h>
#define yylex yylex_of
void yyerror (YYLTYPE *place, int *into, struct state *state, const char *what);
}
%define api.pure full
%code provides { int yylex_of (YYSTYPE *value, YYLTYPE *place); }
%union { int number; }
%token <number> NUMBER
%type <number> sum
%%
all : sum             { *into = $1; printf ("%d\n", state != NULL); }
    ;
sum : NUMBER
    | sum '+' NUMBER  { $$ = $1 + $3; }
    ;
%%
