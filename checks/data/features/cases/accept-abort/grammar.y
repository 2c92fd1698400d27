%{
#include "lexer.h"
static int yylex (void);
static void yyerror (const char *what);
%}
%token NUMBER
%%
all :
    | all item      { printf ("item %d\n", $2); }
    ;
item : NUMBER       { $$ = $1 * 2; }
     | 'a'          { printf ("enough\n"); YYACCEPT; }
     | 'b'          { printf ("not this\n"); YYABORT; }
     ;
%%
static int yylex (void)
{
  int sign = read_sign ();

  if (IS_DIGIT (sign))
    {
      yylval = sign - '0';
      return NUMBER;
    }
  return sign == '\n' ? 0 : sign;
}
static void yyerror (const char *what)
{
  printf ("said: %s\n", what);
}
int main (void)
{
  int ended = yyparse (), again = yyparse ();
  printf ("ended %d, then %d\n", ended, again);
  return 10 * ended + again;
}
