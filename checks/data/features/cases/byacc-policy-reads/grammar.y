%{
#include "plain.h"
%}
%token NUMBER
%expect 0
%left '+'
%left '*'
%%
all :                { printf ("none\n"); }
    | all line        { printf ("line\n"); }
    ;
line : sum ';'        { printf ("sum %d\n", $1); }
     | '{' all '}'    { printf ("block\n"); }
     ;
sum : NUMBER          { printf ("number\n"); }
    | sum '+' sum     { printf ("plus\n"); $$ = $1 + $3; }
    | sum '*' sum     { printf ("times\n"); $$ = $1 * $3; }
    | '(' sum ')'     { printf ("brackets\n"); $$ = $2; }
    ;
%%
#include "reads_tail.h"
