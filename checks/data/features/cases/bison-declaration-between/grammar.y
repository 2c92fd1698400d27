%require "3.0"
%{
#include "plain.h"
%}
%token NUMBER
%%
all : one NUMBER      { printf ("%d\n", $one + $2); }
%type <number> one;
%union { int number; };
%token <number> NUMBER;
one : NUMBER
    ;
%%
static int yylex (void)
{
  int sign = read_sign ();

  yylval.number = sign - '0';
  return sign == '\n' ? 0 : NUMBER;
}
static void yyerror (const char *what)
{
  printf ("said: %s\n", what);
}
int main (void)
{
  return yyparse ();
}
