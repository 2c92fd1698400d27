%{
#include "lexer.h"
static int yylex (void);
static void yyerror (const char *what);
%}
%token NUMBER
%%
all : NUMBER group        { printf ("all %d %d\n", $1, $2); }
    ;
group : '(' items ')'     { printf ("before the group: %d\n", $0); $$ = $2 + $0; }
      ;
items : item              { printf ("one, after %c, %d\n", $0, $-1); }
      | items item        { printf ("two: %d %d, after %c, %d\n", $1, $2, $0, $-1); $$ = $1 + $2; }
      ;
item : NUMBER
     | '(' { $$ = $-1; } items ')'  { printf ("inner %d %d\n", $2 == $-1, $3); $$ = $3; }
     ;
%%
static int yylex (void)
{
  int sign = read_sign ();

  if (IS_DIGIT (sign))
    {
      yylval = sign - '0';
      return NUMBER;
    }
  yylval = sign;
  return sign == '\n' ? 0 : sign;
}
static void yyerror (const char *what)
{
  printf ("said: %s\n", what);
}
int main (void)
{
  return yyparse ();
}
