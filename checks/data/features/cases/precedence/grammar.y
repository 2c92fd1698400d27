%{
#include "plain.h"
%}
%token NUMBER
%right '='
%nonassoc '<' '>'
%left '+' '-'
%left '*' '/'
%right '^'
%left SIGN
%%
all : sum             { printf ("= %d\n", $1); }
    ;
sum : NUMBER
    | sum '=' sum     { printf ("%d=%d\n", $1, $3); $$ = $3; }
    | sum '<' sum     { printf ("%d<%d\n", $1, $3); $$ = $1 < $3; }
    | sum '>' sum     { printf ("%d>%d\n", $1, $3); $$ = $1 > $3; }
    | sum '+' sum     { printf ("%d+%d\n", $1, $3); $$ = $1 + $3; }
    | sum '-' sum     { printf ("%d-%d\n", $1, $3); $$ = $1 - $3; }
    | sum '*' sum     { printf ("%d*%d\n", $1, $3); $$ = $1 * $3; }
    | sum '^' sum     { printf ("%d^%d\n", $1, $3); $$ = $1 * 10 + $3; }
    | '-' sum %prec SIGN  { printf ("-%d\n", $2); $$ = -$2; }
    ;
%%
#include "plain_tail.h"
