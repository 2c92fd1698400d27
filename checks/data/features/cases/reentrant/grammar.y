%{
#include "lexer.h"
static int yylex (void);
static void yyerror (const char *what);
static int value;
%}
%token NUMBER
%%
all : sum             { value = $1; printf ("sum %d\n", $1); }
    | error '!'       { value = 0; printf ("wrong\n"); }
    ;
sum : NUMBER
    | sum '+' NUMBER  { printf ("%d + %d\n", $1, $3); $$ = $1 + $3; }
    ;
%%
static int depth;
static int inner (void)
{
  int kept = yychar, errors = yynerrs, ended;

  depth++;
  ended = yyparse ();
  depth--;
  printf ("inner %d\n", ended);
  yychar = kept;
  yynerrs = errors;
  yylval = value;
  return NUMBER;
}
static int yylex (void)
{
  int sign = read_sign ();

  if (IS_DIGIT (sign))
    {
      yylval = sign - '0';
      return NUMBER;
    }
  if (sign == '(')
    return inner ();
  return sign == '\n' || (sign == ')' && depth) ? 0 : sign;
}
static void yyerror (const char *what)
{
  printf ("said: %s\n", what);
}
int main (void)
{
  int ended = yyparse ();
  printf ("ended %d, errors %d\n", ended, yynerrs);
  return ended;
}
