%{
#include "lexer.h"
struct YYLTYPE;
static int yylex (int *value, struct YYLTYPE *place);
static void yyerror (struct YYLTYPE *place, const char *what);
%}
%pure-parser
%locations
%token NUMBER
%%
all : NUMBER NUMBER   { printf ("%d at %d, %d at %d\n", $1, @1.last_column, $2, @2.last_column); }
    ;
%%
static int yylex (int *value, YYLTYPE *place)
{
  static int at;
  int sign = read_sign ();

  place->last_column = ++at;
  place->first_column = place->first_line = place->last_line = 0;
  *value = sign - '0';
  return sign == '\n' ? 0 : IS_DIGIT (sign) ? NUMBER : sign;
}
static void yyerror (YYLTYPE *place, const char *what)
{
  printf ("at %d: %s\n", place->last_column, what);
}
int main (void)
{
  return yyparse ();
}
