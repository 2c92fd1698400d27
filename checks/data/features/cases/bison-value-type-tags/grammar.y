%code requires {
struct value { int number; double real; };
}
%define api.value.type {struct value}
%code {
#include "lexer.h"
static int yylex (void);
static void yyerror (const char *what);
}
%token <number> NUMBER
%type <real> sum
%%
all : sum             { printf ("sum %.1f %d\n", $1, $<number>1 == 0); }
    ;
sum : NUMBER          { $<number>$ = 0; $$ = $1 * 1.5; }
    | sum '+' NUMBER  { $<number>$ = 0; $$ = $1 + $3; }
    ;
%%
static int yylex (void)
{
  int sign = read_sign ();

  yylval.number = sign - '0';
  yylval.real = 1.5;
  return sign == '\n' ? 0 : sign == '+' ? '+' : NUMBER;
}
static void yyerror (const char *what)
{
  printf ("said: %s\n", what);
}
int main (void)
{
  return yyparse ();
}
