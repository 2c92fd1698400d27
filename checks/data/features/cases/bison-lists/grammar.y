%define parse.error verbose
%{
#include "plain.h"
%}
%token NUMBER
%nonassoc '<' '='
%left '+'
%%
all  : test ';'        { printf ("all %d\n", $1); }
     ;
test : sum
     | test '<' test   { $$ = $1 < $3; }
     | test '=' test   { $$ = $1 == $3; }
     ;
sum  : term
     | sum '+' sum     { $$ = $1 + $3; }
     ;
term : unit
     | term '*' unit   { $$ = $1 * $3; }
     ;
unit : NUMBER
     | '(' test ')'    { $$ = $2; }
     ;
%%
#include "plain_tail.h"
