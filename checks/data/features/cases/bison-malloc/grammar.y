%require "3.0"
%{
#include <stdio.h>
#include <stdlib.h>
#define YYMALLOC counted_malloc
#define YYFREE counted_free
static void *counted_malloc (size_t size);
static void counted_free (void *block);
static int yylex (void);
static void yyerror (const char *what);
static int left, taken;
%}
%%
all : list            { printf ("list %d\n", $1); }
    ;
list : 'x'            { $$ = 1; }
     | 'x' list       { $$ = $2 + 1; }
     ;
%%
static void *counted_malloc (size_t size)
{
  taken++;
  return malloc (size);
}
static void counted_free (void *block)
{
  taken--;
  free (block);
}
static int yylex (void)
{
  return left-- > 0 ? 'x' : 0;
}
static void yyerror (const char *what)
{
  printf ("said: %s\n", what);
}
int main (void)
{
  int ended;

  if (scanf ("%d", &left) != 1)
    return 3;
  ended = yyparse ();
  printf ("ended %d, blocks left %d\n", ended, taken);
  return ended;
}
