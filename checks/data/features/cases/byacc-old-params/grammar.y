%{
#include "lexer.h"
#define YYPARSE_PARAM into
#define YYPARSE_PARAM_TYPE int *
#define YYLEX_PARAM into
static int yylex (void *counted);
static void yyerror (const char *what);
%}
%token NUMBER
%%
all : NUMBER NUMBER   { printf ("%d\n", *into + $1 + $2); }
    ;
%%
static int yylex (void *counted)
{
  int sign = read_sign ();

  ++*(int *) counted;
  yylval = sign - '0';
  return sign == '\n' ? 0 : NUMBER;
}
static void yyerror (const char *what)
{
  printf ("said: %s\n", what);
}
int main (void)
{
  int count = 10, ended = yyparse (&count);
  printf ("count %d\n", count);
  return ended;
}
