%define api.token.prefix {TOK_}
%define parse.error verbose
%code {
#include <stdio.h>
int yylex (void);
void yyerror (const char *what);
}
%token NUMBER PLUS "+" END_OF_LINE 0 "end"
%token EXTRA
%type <int> sum
%define api.value.type union
%token <int> NUMBER
%left PLUS
%%
all : sum             { printf ("sum %d, %d\n", $1, TOK_NUMBER > 256); }
    | sum EXTRA       { printf ("extra %d\n", $1); }
    ;
sum : NUMBER
    | sum PLUS sum    { $$ = $1 + $3; }
    ;
%%
int main (void)
{
  return yyparse ();
}
