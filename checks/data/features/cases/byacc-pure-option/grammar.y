%{
#include "lexer.h"
static int yylex (int *value);
static void yyerror (const char *what);
%}
%token NUMBER
%%
all : NUMBER NUMBER   { printf ("%d %d\n", $1, $2); }
    ;
%%
static int yylex (int *value)
{
  int sign = read_sign ();

  *value = sign - '0';
  return sign == '\n' ? 0 : NUMBER;
}
static void yyerror (const char *what)
{
  printf ("said: %s\n", what);
}
int main (void)
{
  return yyparse ();
}
