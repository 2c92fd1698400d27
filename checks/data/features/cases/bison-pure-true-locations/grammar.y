%define api.pure
%locations
%code {
#include "lexer.h"
static int yylex (YYSTYPE *value, YYLTYPE *place);
static void yyerror (const char *what);
}
%token NUMBER
%%
all : sum             { printf ("sum %d, %d to %d\n", $1, @1.first_column, @1.last_column); }
    | error '+'       { printf ("wrong from %d to %d\n", @1.first_column, @1.last_column); }
    ;
sum : NUMBER
    | sum '+' NUMBER  { $$ = $1 + $3; }
    ;
%%
static int yylex (YYSTYPE *value, YYLTYPE *place)
{
  int sign = read_sign ();

  place->first_column = place->last_column;
  place->last_column++;
  if (IS_DIGIT (sign))
    {
      *value = sign - '0';
      return NUMBER;
    }
  return sign == '\n' ? 0 : sign;
}
static void yyerror (const char *what)
{
  printf ("said: %s\n", what);
}
int main (void)
{
  return yyparse ();
}
