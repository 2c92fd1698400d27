%define api.token.raw
%define parse.error custom
%code {
#include "lexer.h"
static int yylex (void);
static void yyerror (const char *what);
}
%token NUMBER PLUS "plus"
%%
all : NUMBER PLUS ;
%%
static int yyreport_syntax_error (const yypcontext_t *ctx)
{
  printf ("custom: %s\n", yysymbol_name (yypcontext_token (ctx)));
  return 0;
}
static int yylex (void)
{
  int sign = read_sign ();
  int token = sign == 'n' ? NUMBER : sign == 'p' ? PLUS : YYEOF;

  printf ("%s, %d\n", yysymbol_name ((yysymbol_kind_t) token), token == (int) YYSYMBOL_PLUS);
  return token;
}
static void yyerror (const char *what)
{
  printf ("said: %s\n", what);
}
int main (void)
{
  return yyparse ();
}
