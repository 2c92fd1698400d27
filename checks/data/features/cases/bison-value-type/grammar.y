%code requires {
struct value { int number; double real; };
}
%define api.value.type {struct value}
%code {
#include "lexer.h"
static int yylex (void);
static void yyerror (const char *what);
}
%token NUMBER
%%
all : sum             { printf ("sum %d %.1f\n", $1.number, $1.real); }
    ;
sum : NUMBER
    | sum '+' NUMBER  { $$.number = $1.number + $3.number; $$.real = $1.real * 2; }
    ;
%%
static int yylex (void)
{
  int sign = read_sign ();

  yylval.number = sign - '0';
  yylval.real = 1.5;
  return sign == '\n' ? 0 : sign == '+' ? '+' : NUMBER;
}
static void yyerror (const char *what)
{
  printf ("said: %s\n", what);
}
int main (void)
{
  return yyparse ();
}
