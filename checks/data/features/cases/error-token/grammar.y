%{
#include "lexer.h"
static int yylex (void);
static void yyerror (const char *what);
%}
%token NUMBER
%%
all :
    | all line
    ;
line : NUMBER ';'   { printf ("line %d, errors %d\n", $1, yynerrs); }
     | error ';'    { printf ("recovered, errors %d\n", yynerrs); yyerrok; }
     ;
%%
static int yylex (void)
{
  int sign = read_sign ();

  if (IS_DIGIT (sign))
    {
      yylval = sign - '0';
      return NUMBER;
    }
  if (sign == '?')
    {
      printf ("the lexer knows no ?\n");
      return 256;
    }
  return sign == '\n' ? 0 : sign;
}
static void yyerror (const char *what)
{
  printf ("said: %s\n", what);
}
int main (void)
{
  int ended = yyparse ();
  printf ("ended %d, errors %d\n", ended, yynerrs);
  return ended;
}
