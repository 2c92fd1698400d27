%define parse.error verbose
%{
#include "lexer.h"
static int yylex (void);
static void yyerror (const char *what);
%}
%left '+' LATE "late" 'b'
%token EARLY
%token 'a' LATE '+'
%type <number> 'c'
%union { int number; }
%%
all : 'x' one | 'y' two
    ;
one : '+' | LATE | EARLY | 'a'
    ;
two : 'b' | "made" | 'd' | 'c'
    ;
%%
static int yylex (void)
{
  int sign = read_sign ();
  return sign == '\n' ? 0 : sign;
}
static void yyerror (const char *what)
{
  printf ("said: %s; %d, %d\n", what, EARLY, LATE);
}
int main (void)
{
  return yyparse ();
}
