%define parse.error custom
%locations
%code {
#include "lexer.h"
static int yylex (void);
static void yyerror (const char *what);
}
%token NUMBER "a number" NAME END 0 "the end"
%%
all : sum             { printf ("sum %d\n", $1); }
    ;
sum : item
    | sum '+' item    { $$ = $1 + $3; }
    ;
item : NUMBER
     | NAME           { $$ = 0; }
     | '(' sum ')'    { $$ = $2; }
     ;
%%
static int yyreport_syntax_error (const yypcontext_t *ctx)
{
  yysymbol_kind_t expected[3];
  yysymbol_kind_t found = yypcontext_token (ctx);
  int few = yypcontext_expected_tokens (ctx, expected, 2);
  yysymbol_kind_t first = expected[0];
  int at, many = yypcontext_expected_tokens (ctx, NULL, 0);
  int count = yypcontext_expected_tokens (ctx, expected, 3);

  printf ("custom at %d: %s", yypcontext_location (ctx)->first_column,
          found == YYSYMBOL_YYEMPTY ? "nothing" : yysymbol_name (found));
  if (found == YYSYMBOL_NUMBER || found == YYSYMBOL_YYUNDEF)
    printf (" (%d)", found == YYSYMBOL_NUMBER);
  printf (", %s and %d of 2, %d of %d:",
          first == YYSYMBOL_YYEMPTY ? "nothing" : yysymbol_name (first), few, count, many);
  for (at = 0; at < count; at++)
    printf (" %s", yysymbol_name (expected[at]));
  printf ("\n");
  return 0;
}
static int yylex (void)
{
  int sign = read_sign ();

  yylloc.first_column = yylloc.last_column++;
  if (IS_DIGIT (sign))
    {
      yylval = sign - '0';
      return NUMBER;
    }
  return sign == '\n' ? END : sign;
}
static void yyerror (const char *what)
{
  printf ("said: %s\n", what);
}
int main (void)
{
  int ended = yyparse ();
  printf ("ended %d, errors %d\n", ended, yynerrs);
  return ended;
}
