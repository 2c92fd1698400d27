%{
static int yylex (void);
%}
%token NUMBER
%%
all : sum             { show ($1); }
    ;
sum : NUMBER
    | sum '+' NUMBER  { $$ = add ($1, $3); }
    ;
%%
#include "lexer.h"
static int add (int one, int other)
{
  return one + other;
}
static void show (int number)
{
  printf ("sum %d\n", number);
}
static int yylex (void)
{
  int sign = read_sign ();

  if (IS_DIGIT (sign))
    {
      yylval = sign - '0';
      return NUMBER;
    }
  return sign == '\n' ? 0 : sign;
}
static void yyerror (const char *what)
{
  printf ("said: %s, %d\n", what, yynerrs);
}
int main (void)
{
  return yyparse ();
}
