%{
#include "plain.h"
%}
%token NUMBER
%%
all : NUMBER
      {
        printf ("one \
line, \"$1\" \\%d", $1);
        printf (" '%c' '%c' %s\n", '\'', '"', "it's" "\\" "\"}" "@$" );
        if ($1) { printf ("%s\n", "}"); } else { printf ("%c\n", '{'); }
        printf ("%d%%\n", $1 %1 + $1);
#define LOCAL(x) \
        (x + $1)
        printf ("%d\n", LOCAL (2));
      }
    ;
%%
#include "plain_tail.h"
