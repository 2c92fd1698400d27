%{
#include <stdio.h>
static int yylex (void);
static void yyerror (const char *what);
static int left;
%}
%%
all : list            { printf ("list %d\n", $1); }
    ;
list : 'x'            { $$ = 1; }
     | 'x' list       { $$ = $2 + 1; }
     ;
%%
static int yylex (void)
{
  return left-- > 0 ? 'x' : 0;
}
static void yyerror (const char *what)
{
  printf ("said: %s\n", what);
}
int main (void)
{
  int ended;

  if (scanf ("%d", &left) != 1)
    return 3;
  ended = yyparse ();
  printf ("ended %d, errors %d\n", ended, yynerrs);
  return ended;
}
