%define api.pure full
%define api.push-pull push
%define parse.error custom
%locations
%code {
#include "lexer.h"
static void yyerror (YYLTYPE *place, const char *what);
}
%token NUMBER "a number" END 0 "the end"
%left '+'
%%
all : sum             { printf ("sum %d\n", $1); }
    ;
sum : NUMBER
    | sum '+' sum     { $$ = $1 + $3; }
    | '(' sum ')'     { $$ = $2; }
    | '(' error ')'   { $$ = 0; }
    ;
%%
static int yyreport_syntax_error (const yypcontext_t *ctx)
{
  yysymbol_kind_t expected[4];
  int at, count = yypcontext_expected_tokens (ctx, expected, 4);

  printf ("custom at %d: %s", yypcontext_location (ctx)->first_column,
          yysymbol_name (yypcontext_token (ctx)));
  for (at = 0; at < count; at++)
    printf (" %s", yysymbol_name (expected[at]));
  printf ("\n");
  return 0;
}
static void yyerror (YYLTYPE *place, const char *what)
{
  printf ("said at %d: %s\n", place->first_column, what);
}
static void tell (yypstate *parse)
{
  yysymbol_kind_t expected[YYNTOKENS];
  int at, count = yypstate_expected_tokens (parse, expected, YYNTOKENS);

  printf ("%d could come:", count);
  for (at = 0; at < count; at++)
    printf (" %s", yysymbol_name (expected[at]));
  printf (", %d with no place for them\n", yypstate_expected_tokens (parse, NULL, 0));
}
int main (void)
{
  yypstate *parse = yypstate_new ();
  YYLTYPE place = { 1, 1, 1, 1 };
  int status;

  tell (parse);
  do
    {
      YYSTYPE value;
      int sign = read_sign ();

      place.first_column = place.last_column++;
      value = sign - '0';
      status = yypush_parse (parse, IS_DIGIT (sign) ? NUMBER : sign == '\n' ? END : sign, &value,
                             &place);
      if (status == YYPUSH_MORE)
        tell (parse);
    }
  while (status == YYPUSH_MORE);
  yypstate_delete (parse);
  printf ("ended %d\n", status);
  return status;
}
