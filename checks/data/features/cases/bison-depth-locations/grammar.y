%require "3.0"
%locations
%{
#include <stdio.h>
static int yylex (void);
static void yyerror (const char *what);
static int left, all;
%}
%destructor { printf ("free %d at %d\n", $$, @$.first_column); } <>
%%
all : list            { $$ = 0; printf ("list %d from %d to %d\n", $1, @1.first_column, @1.last_column); }
    ;
list : 'x'            { $$ = 1; }
     | 'x' list       { $$ = $2 + 1; }
     ;
%%
static int yylex (void)
{
  yylloc.first_column = yylloc.last_column = all - left + 1;
  yylval = left;
  return left-- > 0 ? 'x' : 0;
}
static void yyerror (const char *what)
{
  printf ("said: %s\n", what);
}
int main (void)
{
  int ended;

  if (scanf ("%d", &left) != 1)
    return 3;
  all = left;
  ended = yyparse ();
  printf ("ended %d, errors %d\n", ended, yynerrs);
  return ended;
}
