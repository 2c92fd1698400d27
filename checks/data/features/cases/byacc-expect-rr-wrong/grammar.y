%{
#include "plain.h"
#define NUMBER 'n'
%}
%expect 1
%expect-rr 0
%%
all : line
    | word 'x' 'x'
    ;
line : 'i' 'n' line          { printf ("if\n"); }
     | 'i' 'n' line 'e' line { printf ("if else\n"); }
     | 'x'                   { printf ("x\n"); }
     | left 'y'
     | right 'y'
     ;
left : 'z'                   { printf ("left\n"); }
     ;
right : 'z'                  { printf ("right\n"); }
      ;
word : 'w'
     ;
%%
#include "plain_tail.h"
