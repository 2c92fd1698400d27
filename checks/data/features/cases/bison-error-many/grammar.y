%define parse.error verbose
%{
#include "lexer.h"
static int yylex (void);
static void yyerror (const char *what);
%}
%%
all : 'x' two 'z' '!'
    ;
two : 'y' '1'
    | 'y' '2'
    | 'y' '3'
    | 'y' '4' 'b'
    | 'y' '5'
    | 'w' '1'
    | 'w' '2'
    | 'w' '3'
    | 'w' '4'
    | 'v'
    ;
%%
static int yylex (void)
{
  int sign = read_sign ();
  return sign == '\n' ? 0 : sign;
}
static void yyerror (const char *what)
{
  printf ("said: %s\n", what);
}
int main (void)
{
  return yyparse ();
}
