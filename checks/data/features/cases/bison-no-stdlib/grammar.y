%code {
/* Names of the library's that a program can have where <stdlib.h> isn't read. */
static int atoi (int *number) { return *number < 0 ? -*number : *number; }
typedef int div_t;
static int random;
#include "plain.h"
}
%token NUMBER
%%
all : sum             { random = $1; printf ("sum %d\n", atoi (&random)); }
    ;
sum : NUMBER
    | sum '+' NUMBER  { div_t it = $1 + $3; $$ = it; }
    ;
%%
#include "plain_tail.h"
