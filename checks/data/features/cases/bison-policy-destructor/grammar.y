%define parse.error verbose
%{
#include "plain.h"
%}
%token NUMBER
%destructor { printf ("lost %d\n", $$); } NUMBER sum
%left '+'
%left '*'
%nonassoc '<'
%%
all : %empty          { printf ("none\n"); }
    | all line        { printf ("line\n"); }
    ;
line : sum ';'        { printf ("sum %d\n", $1); }
     | error          { printf ("error\n"); }
     | '{' all '}'    { printf ("block\n"); }
     | '=' error ';'  { printf ("assignment\n"); yyerrok; }
     ;
sum : NUMBER          { printf ("number\n"); }
    | sum '+' sum     { printf ("plus\n"); $$ = $1 + $3; }
    | sum '*' sum     { printf ("times\n"); $$ = $1 * $3; }
    | sum '<' sum     { printf ("less\n"); $$ = $1 < $3; }
    | '(' sum ')'     { printf ("brackets\n"); $$ = $2; }
    | '(' error ')'   { printf ("no brackets\n"); $$ = 0; }
    ;
%%
#include "reads_tail.h"
