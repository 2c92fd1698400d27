%define api.pure true
%code {
#include "lexer.h"
static int yylex (YYSTYPE *value);
static void yyerror (const char *what);
}
%union {
  int number;
  char sign;
}
%token <number> NUMBER
%type <number> sum
%%
all : sum             { printf ("sum %d, %d\n", $1, yychar == YYEMPTY); }
    | error '+'       { printf ("wrong, errors %d\n", yynerrs); }
    ;
sum : NUMBER
    | sum '+' NUMBER  { $$ = $1 + $3; }
    ;
%%
static int yylex (YYSTYPE *value)
{
  int sign = read_sign ();

  if (IS_DIGIT (sign))
    {
      value->number = sign - '0';
      return NUMBER;
    }
  return sign == '\n' ? YYEOF : sign;
}
static void yyerror (const char *what)
{
  printf ("said: %s\n", what);
}
int main (void)
{
  int ended = yyparse ();
  printf ("ended %d, pure %d\n", ended, YYPURE);
  return ended;
}
