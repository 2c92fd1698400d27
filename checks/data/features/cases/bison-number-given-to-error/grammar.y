%require "3.0"
%{
#include <stdio.h>
static int yylex (void);
static void yyerror (const char *what);
%}
%token error 40000 A 256
%%
all : A               { printf ("A %d, error %d\n", A, YYerror); }
    | A error ';'     { printf ("recovered\n"); }
    ;
%%
static int yylex (void)
{
  int sign = getchar (), number = 0;

  while (sign == ' ')
    sign = getchar ();
  if (sign == '!')
    return YYerror;
  for (; '0' <= sign && sign <= '9'; sign = getchar ())
    number = 10 * number + sign - '0';
  if (number > 0)
    return number;
  return sign == '\n' || sign == EOF ? 0 : sign;
}
static void yyerror (const char *what)
{
  printf ("said: %s\n", what);
}
int main (void)
{
  int ended = yyparse ();
  printf ("ended %d\n", ended);
  return ended;
}
