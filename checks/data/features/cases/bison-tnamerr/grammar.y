%define parse.error verbose
%{
#include <string.h>
#include "plain.h"
#define yytnamerr named
static size_t named (char *result, const char *name);
%}
%token NUMBER "a number" QUOTE "\"" PLUS "plus"
%%
all : sum             { printf ("sum %d\n", $1); }
    ;
sum : NUMBER
    | sum PLUS NUMBER { $$ = $1 + $3; }
    | QUOTE
    ;
%%
static size_t named (char *result, const char *name)
{
  size_t length = strlen (name);

  if (result)
    {
      result[0] = '<';
      memcpy (result + 1, name, length);
      result[length + 1] = '>';
      result[length + 2] = 0;
    }
  return length + 2;
}
static int yylex (void)
{
  int sign = read_sign ();

  yylval = sign - '0';
  return sign == '\n' ? 0 : sign == '+' ? PLUS : sign == '"' ? QUOTE : NUMBER;
}
static void yyerror (const char *what)
{
  printf ("said: %s\n", what);
}
int main (void)
{
  return yyparse ();
}
