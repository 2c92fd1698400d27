%{
#include "lexer.h"
static int yylex (void);
static void yyerror (const char *what);
%}
%token NUMBER
%%
all :
    | all line
    ;
line : sum ';'      { printf ("sum %d, recovering %d\n", $1, YYRECOVERING () ? 1 : 0); }
     | error ';'    { printf ("recovering %d, errors %d\n", YYRECOVERING () ? 1 : 0, yynerrs); }
     | error '!'    { yyerrok; printf ("recovering %d\n", YYRECOVERING () ? 1 : 0); }
     ;
sum : NUMBER
    | sum '+' NUMBER    { $$ = $1 + $3; }
    ;
%%
static int yylex (void)
{
  int sign = read_sign ();

  if (IS_DIGIT (sign))
    {
      yylval = sign - '0';
      return NUMBER;
    }
  return sign == '\n' ? 0 : sign;
}
static void yyerror (const char *what)
{
  printf ("said: %s at %d\n", what, yychar);
}
int main (void)
{
  int ended = yyparse ();
  printf ("ended %d, errors %d\n", ended, yynerrs);
  return ended;
}
