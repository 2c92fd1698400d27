%require "3.2"
%{
#include "lexer.h"
static int yylex (void);
static void yyerror (const char *what);
%}
%union {
  int number;
  double half;
}
%token <number> NUMBER
%type <number> all
%%
all : NUMBER[first] <half>{ $$ = $first / 2.0; }[part] NUMBER
      <number>{ $$ = $3 * 10; printf ("%.1f\n", $part); } NUMBER
      { $$ = $4 + $5; printf ("%.1f %d %d\n", $2, $4, $$); }
    ;
%%
static int yylex (void)
{
  int sign = read_sign ();

  yylval.number = sign - '0';
  return sign == '\n' ? 0 : NUMBER;
}
static void yyerror (const char *what)
{
  printf ("said: %s\n", what);
}
int main (void)
{
  return yyparse ();
}
