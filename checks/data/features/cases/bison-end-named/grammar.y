%define parse.error verbose
%{
#include "lexer.h"
static int yylex (void);
static void yyerror (const char *what);
%}
%token END 0
%token NUMBER
%%
all : NUMBER NUMBER   { printf ("%d\n", $1 + $2); }
    ;
%%
static int yylex (void)
{
  int sign = read_sign ();

  yylval = sign - '0';
  return IS_DIGIT (sign) ? NUMBER : sign == '\n' ? END : sign;
}
static void yyerror (const char *what)
{
  printf ("said: %s, end %d\n", what, YYEOF);
}
int main (void)
{
  return yyparse ();
}
