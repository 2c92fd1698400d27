%file-prefix "named"
%defines "tokens.h"
%{
#include "plain.h"
int more (void);
%}
%token NUMBER OTHER
%%
all : NUMBER          { printf ("%d\n", $1 + more ()); }
    | OTHER
    ;
%%
#include "plain_tail.h"
