%require "3.0"
%{
#include "lexer.h"
static int yylex (void);
static void yyerror (const char *what);
%}
%union {
  int number;
  int sign;
}
%token <sign> END 0
%token <number> error
%type <sign> 'a' 'b' 'c' 'd' 'e' 'x' ';' 'g' all
%destructor { (void) $$; printf ("free sign\n"); } <sign>
%destructor { printf ("free some %d\n", (int) sizeof $$); } <*>
%destructor { printf ("free any %d\n", (int) sizeof $$); } <>
%%
/* An inner action with a tag that neither sets its value nor is read has none to destroy. */
all : 'a' <number>{ printf ("not set\n"); } 'b' 'c' ';'  { $$ = 0; }
    | 'd' <number>{ $$ = 1000; } 'e' ';'                 { $$ = 1; }
    | 'g' <sign>{ printf ("not set\n"); } ';'            { $$ = 1; }
    ;
%%
static int yylex (void)
{
  int sign = read_sign ();

  yylval.sign = sign;
  return sign == '\n' ? 0 : sign;
}
static void yyerror (const char *what)
{
  printf ("said: %s\n", what);
}
int main (void)
{
  int ended = yyparse ();
  printf ("ended %d\n", ended);
  return ended;
}
