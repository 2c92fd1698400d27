%{
#include "plain.h"
%}
%token NUMBER
%%
all :
    | all line
    ;
line : items ';'    { printf ("line of %d\n", $1); }
     | error ';'    { printf ("recovered, errors %d\n", yynerrs); }
     ;
items : item
      | items ',' item  { $$ = $1 + $3; }
      ;
item : NUMBER
       {
         if ($1 == 9)
           {
             printf ("nine\n");
             YYERROR;
           }
         $$ = $1;
       }
     ;
%%
#include "plain_tail.h"
