%{
#include "plain.h"
%}
%type <number> pair single one
%union { int number; }
%token <number> NUMBER
%%
all : pair            { printf ("pair %d\n", $1); }
    | pair single one { printf ("%d %d %d\n", $1, $2, $3); }
    ;
pair : one
     ;
single : one
       | one ',' one  { $$ += $3; }
       ;
one : NUMBER
    ;
%%
static int yylex (void)
{
  int sign = read_sign ();

  if (IS_DIGIT (sign))
    {
      yylval.number = sign - '0';
      return NUMBER;
    }
  return sign == '\n' ? 0 : sign;
}
static void yyerror (const char *what)
{
  printf ("said: %s\n", what);
}
int main (void)
{
  return yyparse ();
}
