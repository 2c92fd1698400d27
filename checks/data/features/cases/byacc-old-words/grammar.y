%{
#include "plain.h"
%}
%term NUMBER
%binary '<'
%left '-'
%%
all : sum
    = { printf ("%d\n", $1); }
    ;
sum : NUMBER
    | sum '<' sum = { $$ = $1 < $3; }
    | sum '-' sum
    =
    {
      $$ = $1 - $3;
    }
%%
#include "plain_tail.h"
