%{
#include "plain.h"
static void show (void);
%}
%left LOW
%token A B 300 C 'c'
%token D 299 NUMBER
%%
all : NUMBER          { show (); }
    | A B C D LOW 'c'
    ;
%%
static void show (void)
{
  printf ("%d %d %d %d %d %d\n", LOW, A, B, C, D, NUMBER);
  printf ("%d %d %d %d %d\n", YYEMPTY, YYEOF, YYerror, YYUNDEF, YYERRCODE);
}
#include "plain_tail.h"
