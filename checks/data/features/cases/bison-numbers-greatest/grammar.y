%{
#include "plain.h"
static void show (void);
%}
%token A 32767 B 40000 C NUMBER
%%
all : NUMBER          { show (); }
    | A B C
    ;
%%
static void show (void)
{
  printf ("%d %d %d %d\n", A, B, C, NUMBER);
  printf ("%d %d %d %d %d\n", YYEMPTY, YYEOF, YYerror, YYUNDEF, YYERRCODE);
}
#include "plain_tail.h"
