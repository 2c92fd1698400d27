%header "tokens.h"
%{
#include "plain.h"
int more (void);
%}
%token NUMBER 500
%%
all : NUMBER          { printf ("%d\n", $1 + more ()); }
    ;
%%
#include "plain_tail.h"
