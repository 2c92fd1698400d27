%{
#include "plain.h"
%}
%token NUMBER
%%
all : NUMBER        { printf ("%d\n", $1); }
    | all '+' NUMBER { printf ("and %d\n", $3); }
    ;
%%
#include "plain_tail.h"
