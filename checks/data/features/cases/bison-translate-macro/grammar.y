%require "3.0"
%token-table
%{
#include "plain.h"
%}
%token NUMBER "number" PLUS "plus"
%%
all : sum             { printf ("sum %d\n", $1); }
    ;
sum : NUMBER PLUS NUMBER { $$ = $1 + $3; }
    ;
%%
static int yylex (void)
{
  int sign = read_sign ();

  yylval = sign - '0';
  return sign == '\n' ? 0 : sign == '+' ? PLUS : IS_DIGIT (sign) ? NUMBER : sign;
}
static void yyerror (const char *what)
{
  printf ("%s at %s\n", what, yytname[YYTRANSLATE (yychar)]);
}
int main (void)
{
  return yyparse ();
}
