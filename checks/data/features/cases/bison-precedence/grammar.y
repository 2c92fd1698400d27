%{
#include "plain.h"
%}
%token NUMBER
%precedence LOW
%right '?' ':'
%left '+'
%precedence SIGN
%precedence '!'
%%
all : sum             { printf ("= %d\n", $1); }
    ;
sum : NUMBER
    | sum '?' sum ':' sum { printf ("%d?%d:%d\n", $1, $3, $5); $$ = $5; }
    | sum '+' sum     { printf ("%d+%d\n", $1, $3); $$ = $1 + $3; }
    | '-' sum %prec SIGN { printf ("-%d\n", $2); $$ = -$2; }
    | sum '!'         { printf ("%d!\n", $1); $$ = $1 * 10; }
    ;
%%
#include "plain_tail.h"
