%define api.pure full
%define api.push-pull push
%code {
#include "lexer.h"
static void yyerror (const char *what);
}
%token NUMBER
%destructor { printf ("dropped %d\n", $$); } <>
%%
all : sum             { printf ("sum %d\n", $1); if ($1 == 9) YYABORT; if ($1 == 8) YYACCEPT; }
    | error '!'       { YYERROR; }
    ;
sum : NUMBER
    | sum '+' NUMBER  { $$ = $1 + $3; if ($$ == 7) YYNOMEM; }
    ;
%%
static void yyerror (const char *what)
{
  printf ("said: %s\n", what);
}
static int token_of (int sign)
{
  return IS_DIGIT (sign) ? NUMBER : sign == ';' ? 0 : sign;
}
static int whole (yypstate *parse, const char *text)
{
  int status = YYPUSH_MORE;

  for (; *text && status == YYPUSH_MORE; text++)
    {
      YYSTYPE value = *text - '0';

      status = yypush_parse (parse, token_of (*text), &value);
    }
  printf ("%s: %d, errors %d\n", text, status, parse->yynerrs);
  return status;
}
int main (void)
{
  yypstate *first = yypstate_new (), *second = yypstate_new ();
  int sign = 0, status = YYPUSH_MORE;

  whole (second, "1+2;");
  whole (second, "4+5;");
  whole (second, "4+4;");
  whole (second, "3+4+5;");
  whole (second, "1++2!3;");
  whole (second, "1;");
  while (status == YYPUSH_MORE && (sign = read_sign ()) != '\n')
    {
      YYSTYPE value = sign - '0';

      status = yypush_parse (first, token_of (sign), &value);
      whole (second, "2;");
    }
  if (status == YYPUSH_MORE)
    status = yypush_parse (first, 0, NULL);
  yypstate_delete (first);
  yypstate_delete (second);
  yypstate_delete (NULL);
  printf ("ended %d\n", status);
  return status;
}
