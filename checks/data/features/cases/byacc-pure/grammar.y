%pure-parser
%{
#include "lexer.h"
%}
%union {
  int number;
  char sign;
}
%token <number> NUMBER
%type <number> sum
%{
static int yylex (YYSTYPE *value);
static void yyerror (const char *what);
%}
%%
all : sum             { printf ("sum %d, %d\n", $1, yychar == YYEMPTY); }
    ;
sum : NUMBER
    | sum '+' NUMBER  { $$ = $1 + $3; }
    ;
%%
static int yylex (YYSTYPE *value)
{
  int sign = read_sign ();

  if (IS_DIGIT (sign))
    {
      value->number = sign - '0';
      return NUMBER;
    }
  return sign == '\n' ? 0 : sign;
}
static void yyerror (const char *what)
{
  printf ("said: %s\n", what);
}
int main (void)
{
  return yyparse ();
}
