%{
#include "lexer.h"
struct YYLTYPE;
static int yylex (void);
static void yyerror (struct YYLTYPE *loc, const char *what);
%}
%token NUMBER
%%
all : lines
    ;
lines : line
      | lines line
      ;
line : sum ';'        { printf ("line %d-%d to %d-%d\n", @$.first_line, @$.first_column,
                                @$.last_line, @$.last_column); }
     | error ';'      { printf ("wrong up to %d\n", @2.last_column); yyerrok; }
     ;
sum : NUMBER          { printf ("number at %d-%d\n", @1.first_column, @1.last_column); }
    | sum '+' NUMBER  { $$ = $1 + $3; printf ("%d to %d\n", @1.first_column, @3.last_column);
                        @$.first_line = 7; }
    ;
%%
static int column;
static int sign_at (void)
{
  int sign;

  do
    sign = getchar (), column++;
  while (sign == ' ');
  yylloc.first_line = yylloc.last_line = 1;
  yylloc.first_column = column;
  yylloc.last_column = column + 1;
  return sign;
}
static int yylex (void)
{
  int sign = sign_at ();

  if (IS_DIGIT (sign))
    {
      yylval = sign - '0';
      return NUMBER;
    }
  return sign == '\n' || sign == EOF ? 0 : sign;
}
static void yyerror (YYLTYPE *loc, const char *what)
{
  printf ("said at %d: %s\n", loc->first_column, what);
}
int main (void)
{
  (void) read_sign;
  return yyparse ();
}
