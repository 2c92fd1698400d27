%define api.push-pull push
%locations
%code {
#include "plain.h"
}
%token NUMBER
%%
all : sum             { printf ("sum %d at %d\n", $1, @1.last_column); }
    | error '+'       { printf ("wrong to %d\n", @1.last_column); }
    ;
sum : NUMBER
    | sum '+' NUMBER  { $$ = $1 + $3; }
    ;
%%
static int yylex (void)
{
  int sign = read_sign ();

  yylloc.first_column = yylloc.last_column++;
  if (IS_DIGIT (sign))
    {
      yylval = sign - '0';
      return NUMBER;
    }
  return sign == '\n' ? 0 : sign;
}
static void yyerror (const char *what)
{
  printf ("said: %s\n", what);
}
int main (void)
{
  yypstate *parse = yypstate_new ();
  int status;

  printf ("a second one: %d\n", yypstate_new () != NULL);
  do
    {
      yychar = yylex ();
      status = yypush_parse (parse);
      printf ("status %d, char %d\n", status, yychar < 0 ? -1 : yychar == 0 ? 0 : 1);
    }
  while (status == YYPUSH_MORE);
  yypstate_delete (parse);
  printf ("ended %d, errors %d\n", status, yynerrs);
  return status;
}
