%define api.value.union.name VALUE
%code {
#include "lexer.h"
static int yylex (void);
static void yyerror (const char *what);
void show (union VALUE *value);
}
%union {
  int number;
}
%token <number> NUMBER
%type <number> sum
%%
all : sum             { union VALUE it; it.number = $1; show (&it); }
    ;
sum : NUMBER
    | sum '+' NUMBER  { $$ = $1 + $3; }
    ;
%%
static int yylex (void)
{
  int sign = read_sign ();

  yylval.number = sign - '0';
  return sign == '\n' ? 0 : sign == '+' ? '+' : NUMBER;
}
static void yyerror (const char *what)
{
  printf ("said: %s\n", what);
}
int main (void)
{
  return yyparse ();
}
