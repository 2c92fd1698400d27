%require "3.8"
%define parse.error detailed
%code {
#include "lexer.h"
static int yylex (void);
static void yyerror (const char *what);
}
%token YYUNDEF NUMBER
%%
all : NUMBER '+' { printf ("after %d\n", $1); } NUMBER { printf ("%d\n", $1 + $4); }
    ;
%%
static int yylex (void)
{
  int sign = read_sign ();

  yylval = sign - '0';
  switch (sign)
    {
    case '\n': return YYEOF;
    case '?': return YYUNDEF;
    case '+': case '%': return sign;
    default: return NUMBER;
    }
}
static void yyerror (const char *what)
{
  printf ("said: %s\n", what);
}
int main (void)
{
  printf ("%d %d\n", YYSYMBOL_4_ == 4, YYSYMBOL_YYACCEPT == YYSYMBOL_all);
  return yyparse ();
}
