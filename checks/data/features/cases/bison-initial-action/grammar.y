%define api.pure full
%locations
%parse-param { int line }
%initial-action {
  printf ("begun at %d.%d\n", @$.first_line, @$.first_column);
  @$.first_line = @$.last_line = line;
  $$ = 70;
}
%code {
#include "lexer.h"
static int yylex (YYSTYPE *value, YYLTYPE *place);
static void yyerror (YYLTYPE *place, int line, const char *what);
}
%token NUMBER
%%
all : NUMBER NUMBER   { printf ("%d %d, line %d\n", $1, $2, @1.first_line); }
    ;
%%
static int yylex (YYSTYPE *value, YYLTYPE *place)
{
  int sign = read_sign ();

  place->first_column++;
  *value += sign - '0';
  return sign == '\n' ? 0 : sign == ',' ? ',' : NUMBER;
}
static void yyerror (YYLTYPE *place, int line, const char *what)
{
  printf ("said at %d, %d: %s\n", place->first_line, line, what);
}
int main (void)
{
  return yyparse (30);
}
