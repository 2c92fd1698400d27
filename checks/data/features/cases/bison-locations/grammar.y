%{
#include "lexer.h"
static int yylex (void);
static void yyerror (const char *what);
%}
%locations
%token NUMBER
%code {
static void show (const char *what, YYLTYPE at)
{
  printf ("%s %d.%d-%d.%d\n", what, at.first_line, at.first_column, at.last_line, at.last_column);
}
}
%%
all : %empty          { show ("begin", @$); }
    | all line        { show ("all", @$); }
    ;
line : sum ';'        { show ("line", @$); show ("sum", @1); show ("end", @2); }
     | ';'            { show ("empty line", @$); }
     | error ';'      { show ("wrong", @1); show ("whole", @$); yyerrok; }
     ;
sum : NUMBER          { show ("number", @1); }
    | sum '+' { show ("middle", @$); show ("sign", @2); } NUMBER
      { show ("left", @1); show ("inner", @3); show ("right", @4);
        @$.first_line = @1.first_line + 1; }
    | '(' sum ')'
    ;
%%
static int yylex (void)
{
  int sign;

  do
    {
      yylloc.first_column = yylloc.last_column;
      sign = getchar ();
      yylloc.last_column++;
    }
  while (sign == ' ');
  yylval = sign - '0';
  return sign == '\n' || sign == EOF ? 0 : IS_DIGIT (sign) ? (int) NUMBER : sign;
}
static void yyerror (const char *what)
{
  show (what, yylloc);
}
int main (void)
{
  YYLTYPE begin = yylloc;
  (void) read_sign;
  show ("before", begin);
  return yyparse ();
}
