%define api.pure true
%locations
%parse-param { int *count }
%code {
#include "lexer.h"
static int yylex (YYSTYPE *value, YYLTYPE *place);
static void yyerror (YYLTYPE *place, int *count, const char *what);
}
%token NUMBER
%%
all : NUMBER NUMBER   { *count = $1 + $2; }
    ;
%%
static int yylex (YYSTYPE *value, YYLTYPE *place)
{
  int sign = read_sign ();

  place->first_column += 3;
  *value = sign - '0';
  return sign == '\n' ? 0 : sign == ',' ? ',' : NUMBER;
}
static void yyerror (YYLTYPE *place, int *count, const char *what)
{
  printf ("said at %d: %s, %d\n", place->first_column, what, *count);
}
int main (void)
{
  int count = 7, ended = yyparse (&count);
  printf ("ended %d, count %d\n", ended, count);
  return ended;
}
