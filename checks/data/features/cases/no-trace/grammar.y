%{
#include "plain.h"
%}
%token NUMBER
%%
all : sum
      {
#if YYDEBUG
        yydebug = 1;
#endif
        printf ("sum %d, trace %d\n", $1, YYDEBUG + 0);
      }
    ;
sum : NUMBER
    | sum '+' NUMBER  { $$ = $1 + $3; }
    ;
%%
#include "plain_tail.h"
