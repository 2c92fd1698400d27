%{
#include "lexer.h"
static int yylex (void);
static void yyerror (const char *what);
extern void tell_macros (void);
%}
%token NUMBER
%%
all : NUMBER          { printf ("number %d\n", $1); }
    | NUMBER error ';' { printf ("recovered\n"); }
    ;
%%
static int yylex (void)
{
  int sign = read_sign ();

  if (IS_DIGIT (sign))
    {
      yylval = sign - '0';
      return NUMBER;
    }
  if (sign == '?')
    return YYERRCODE;
  if (sign == '!')
    return YYerror;
  return sign == '\n' ? 0 : sign;
}
static void yyerror (const char *what)
{
  printf ("said: %s\n", what);
}
int main (void)
{
  int ended;

  tell_macros ();
  printf ("%d %d\n", YYERRCODE == YYUNDEF, YYEMPTY);
  ended = yyparse ();
  printf ("ended %d\n", ended);
  return ended;
}
