%require "3.0"
%{
#include "lexer.h"
struct own { int number; };
static int first = __LINE__;
%}
%union {
  struct own own;
}
%{
static int yylex (void);
static void yyerror (const char *what);
static void show (YYSTYPE *value);
static int second = __LINE__;
%}
%token <own> NUMBER
%union {
  char letter;
}
%type <letter> one
%%
all : one             { printf ("%c\n", $1); }
    ;
one : NUMBER          { YYSTYPE it; it.own = $1; show (&it); $$ = 'c'; }
    ;
%%
static void show (YYSTYPE *value)
{
  printf ("%d, %d %d\n", value->own.number, first, second);
}
static int yylex (void)
{
  int sign = read_sign ();

  yylval.own.number = sign - '0';
  return sign == '\n' ? 0 : NUMBER;
}
static void yyerror (const char *what)
{
  printf ("said: %s\n", what);
}
int main (void)
{
  return yyparse ();
}
