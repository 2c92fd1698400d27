%{
#include "plain.h"
#if 0
Here it's no C, but it's a text.
#endif
%}
%token NUMBER
%%
all : NUMBER
      {
#if 0
        /* it's not "here */
        That isn't C, and that's two.
#endif
        printf ("number %d\n", $1);
      }
    ;
%%
#if 0
It's a text, and that's all.
#endif
#include "plain_tail.h"
