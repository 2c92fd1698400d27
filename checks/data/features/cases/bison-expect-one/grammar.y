%{
#include "plain.h"
#define NUMBER 'n'
%}
%expect 1

%%
all : line
    | word 'x' 'x'
    ;
line : 'i' 'n' line          { printf ("if\n"); }
     | 'i' 'n' line 'e' line { printf ("if else\n"); }
     | 'x'                   { printf ("x\n"); }
     ;
     ;
word : 'w'
     ;
%%
#include "plain_tail.h"
