%{
#include <stdio.h>
extern int yylex (void);
extern void yyerror (const char *what);
%}
%token NUMBER 300
%%
all : sum             { printf ("sum %d\n", $1); }
    ;
sum : NUMBER
    | sum '+' NUMBER  { $$ = $1 + $3; }
    ;
%%
