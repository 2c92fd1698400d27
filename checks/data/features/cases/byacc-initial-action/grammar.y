%{
#include "plain.h"
static int begun;
%}
%initial-action {
  begun = 40;
  printf ("begun\n");
}
%token NUMBER
%%
all : NUMBER NUMBER   { printf ("%d\n", begun + $1 + $2); }
    ;
%%
#include "plain_tail.h"
