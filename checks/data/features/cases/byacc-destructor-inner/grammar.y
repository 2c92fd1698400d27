%{
#include "lexer.h"
static int yylex (void);
static void yyerror (const char *what);
%}
%destructor { printf ("free %d\n", $$); } <>
%%
all : 'a' { $$ = 1000; } 'b' 'c' ';'         { $$ = 0; printf ("set\n"); }
    | 'd' { printf ("not set\n"); } 'e' ';'  { $$ = 1; }
    ;
%%
static int yylex (void)
{
  int sign = read_sign ();

  yylval = sign;
  return sign == '\n' ? 0 : sign;
}
static void yyerror (const char *what)
{
  printf ("said: %s\n", what);
}
int main (void)
{
  int ended = yyparse ();
  printf ("ended %d\n", ended);
  return ended;
}
