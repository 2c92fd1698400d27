%define api.token.raw
%define parse.error verbose
%code {
#include "lexer.h"
static int yylex (void);
static void yyerror (const char *what);
}
%token END 0 "the end"
%token NUMBER 300 PLUS "plus"
%%
all : sum             { printf ("sum %d\n", $1); }
    | error PLUS      { printf ("wrong\n"); }
    ;
sum : NUMBER
    | sum PLUS NUMBER { $$ = $1 + $3; }
    ;
%%
static int yylex (void)
{
  int sign = read_sign ();

  yylval = 1;
  return sign == 'n' ? NUMBER : sign == 'p' ? PLUS : sign == '\n' ? END : YYUNDEF;
}
static void yyerror (const char *what)
{
  printf ("said: %s\n", what);
}
int main (void)
{
  int ended = yyparse ();
  printf ("ended %d, errors %d, the end %d, error %d\n", ended, yynerrs, END, YYerror);
  return ended;
}
