%{
#include "lexer.h"
#define yylex lex_of_mine
#define yyerror(what) tell (what, __LINE__ > 0)
static int lex_of_mine (void);
static void tell (const char *what, int line);
%}
%token NUMBER
%%
all : sum             { printf ("sum %d\n", $1); }
    ;
sum : NUMBER
    | sum '+' NUMBER  { $$ = $1 + $3; }
    ;
%%
static int lex_of_mine (void)
{
  int sign = read_sign ();

  yylval = sign - '0';
  return sign == '\n' ? 0 : sign == '+' ? '+' : NUMBER;
}
static void tell (const char *what, int line)
{
  printf ("told: %s %d\n", what, line);
}
int main (void)
{
  return yyparse ();
}
