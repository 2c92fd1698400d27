%{
#include "plain.h"
%}
%token NUMBER FIRST
%%
all : NUMBER
      {
#ifdef YYBYACC
        printf ("byacc %d\n", YYBYACC);
#endif
#ifdef YYBISON
        printf ("bison\n");
#endif
        printf ("%s %d %d %d\n", YYPREFIX, YYEMPTY, YYERRCODE, FIRST);
      }
    | FIRST
    ;
%%
#include "plain_tail.h"
