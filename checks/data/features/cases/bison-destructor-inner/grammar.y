%require "3.0"
%{
#include "lexer.h"
static int yylex (void);
static void yyerror (const char *what);
%}
%token END 0
%destructor { (void) $$; printf ("free\n"); } <>
%destructor { printf ("free 'z' %d\n", $$); } 'z'
%%
/* Inner actions set their values, or these are read, or neither; so it decides which are destroyed. */
all : 'a' { $$ = 1000; } 'b' 'c' ';'    { $$ = 0; printf ("set\n"); }
    | 'd' { printf ("not set\n"); } 'e' ';'  { $$ = 1; }
    | 'f' { printf ("read\n"); } 'g' ';'  { $$ = $2; }
    | 'h' error 'i' ';'                 { $$ = 2; printf ("recovered\n"); }
    | 'j' { $$ = 1; }[kept] { $$ = $kept + 1; } 'k' ';'  { $$ = $3; }
    ;
%%
static int yylex (void)
{
  int sign = read_sign ();

  yylval = sign;
  return sign == '\n' ? 0 : sign;
}
static void yyerror (const char *what)
{
  printf ("said: %s\n", what);
}
int main (void)
{
  int ended = yyparse ();
  printf ("ended %d\n", ended);
  return ended;
}
