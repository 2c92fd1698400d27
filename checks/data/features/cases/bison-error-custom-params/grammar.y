%define parse.error custom
%define api.pure full
%define api.prefix {calc}
%parse-param { int *count }
%code {
#include "lexer.h"
static int calclex (CALCSTYPE *value);
static void calcerror (int *count, const char *what);
}
%token NUMBER
%%
all : sum             { printf ("sum %d\n", $1); }
    ;
sum : NUMBER
    | sum '+' NUMBER  { $$ = $1 + $3; }
    ;
%%
static int yyreport_syntax_error (const yypcontext_t *ctx, int *count)
{
  yysymbol_kind_t expected[YYNTOKENS];
  int many = yypcontext_expected_tokens (ctx, expected, YYNTOKENS);

  ++*count;
  printf ("custom: %s, %d, %s\n", yysymbol_name (yypcontext_token (ctx)), many,
          many ? yysymbol_name (expected[0]) : "");
  return 0;
}
static int calclex (CALCSTYPE *value)
{
  int sign = read_sign ();

  if (IS_DIGIT (sign))
    {
      *value = sign - '0';
      return NUMBER;
    }
  return sign == '\n' ? 0 : sign;
}
static void calcerror (int *count, const char *what)
{
  printf ("said: %s %d\n", what, *count);
}
int main (void)
{
  int count = 0, ended = calcparse (&count);
  printf ("ended %d, errors %d\n", ended, count);
  return ended;
}
