%{
#include "lexer.h"
static int yylex (void);
static void yyerror (const char *what);
%}
%token NUMBER
%%
all :
    | all item      { printf ("item %d\n", $2); }
    ;
item : NUMBER
     | error NUMBER { $$ = -$2; }
     ;
%%
static int yylex (void)
{
  int sign = read_sign ();

  if (IS_DIGIT (sign))
    {
      yylval = sign - '0';
      return NUMBER;
    }
  if (sign == '\n')
    return 0;
  /* The lexer has found an error itself, and names it as bash does. */
#if defined YYERRCODE && ! defined YYUNDEF
  return YYERRCODE;
#else
  return YYerror;
#endif
}
static void yyerror (const char *what)
{
  printf ("said: %s\n", what);
}
int main (void)
{
  int ended = yyparse ();
  printf ("ended %d\n", ended);
  return ended;
}
