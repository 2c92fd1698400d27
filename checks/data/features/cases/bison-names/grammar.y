%require "3.0"
%debug
%verbose
%no-lines
%{
#include <string.h>
#include "plain.h"
%}
%token NUMBER 258 OTHER
%%
all : NUMBER
      {
#ifdef YYBYACC
        printf ("byacc\n");
#endif
#ifdef YYBISON
        printf ("bison %d\n", YYBISON > 0);
#endif
#ifdef YYLSP_NEEDED
        printf ("locations %d\n", YYLSP_NEEDED);
#endif
        printf ("%d %d %d, pure %d, push %d, pull %d\n", YYEMPTY, YYerror, YYEOF,
                YYPURE, YYPUSH, YYPULL);
        printf ("trace %d, line %d\n", YYDEBUG, strstr (__FILE__, "grammar") != NULL);
      }
    | OTHER
    ;
%%
#include "plain_tail.h"
