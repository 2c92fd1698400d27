%{
#include "plain.h"   // it's a comment
%}
%token NUMBER
%%
all : NUMBER NUMBER
      {
        // it's no value: $9 }
        printf ("%d // %d\n", $1, $2); // "
        int kept = $1 / 1; /* a // b */ printf ("%d\n", kept); // {
      }
    ;
%%
// it's the tail
#include "plain_tail.h"
