%{
#include <stdio.h>
#include <stdlib.h>
static int yylex (void);
static void yyerror (const char *what);
static int left, count;
%}
%%
all : list            { printf ("list %d\n", $1); }
    ;
list : 'x'            { $$ = 1; }
     | 'x' list       { $$ = $1 == $2 + 1 ? $2 + 1 : -9; }
     ;
%%
static int yylex (void)
{
  if (left == 0)
    return 0;
  yylval = left--;
  return 'x';
}
static void yyerror (const char *what)
{
  printf ("said: %s\n", what);
}
int main (void)
{
  if (scanf ("%d", &count) != 1)
    return 2;
  left = count;

  return yyparse ();
}
