%define api.value.type {const char *}
%code {
#include "lexer.h"
static int yylex (void);
static void yyerror (const char *what);
}
%token WORD
%%
all : WORD WORD       { printf ("%s %s\n", $1, $2); }
    ;
%%
static int yylex (void)
{
  int sign = read_sign ();

  yylval = sign == 'a' ? "first" : "second";
  return sign == '\n' ? 0 : WORD;
}
static void yyerror (const char *what)
{
  printf ("said: %s\n", what);
}
int main (void)
{
  return yyparse ();
}
