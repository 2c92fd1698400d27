%{
#include "plain.h"
#define NUMBER 'n'
%}
%%
all : line
    | word 'n'                { printf ("word\n"); }
    ;
line : 'i' name line          { printf ("if\n"); }
     | 'i' name line 'e' line { printf ("if else\n"); }
     | 'x'                    { printf ("x\n"); }
     | 'n'                    { printf ("n\n"); }
     | name                   { printf ("a name\n"); }
     ;
name : 'n'                    { printf ("name\n"); }
     ;
word :                        { printf ("no word\n"); }
     ;
%%
#include "plain_tail.h"
