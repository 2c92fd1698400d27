%{
#include "lexer.h"
static int *counted, limit = 5;
static int yylex (int *count, int limit);
static void yyerror (const char *what);
%}
%lex-param { int *counted }
%lex-param { int limit }
%token NUMBER
%%
all : sum             { printf ("sum %d\n", $1); }
    ;
sum : NUMBER
    | sum '+' NUMBER  { $$ = $1 + $3; }
    ;
%%
static int yylex (int *count, int more)
{
  int sign = read_sign ();

  ++*count;
  if (IS_DIGIT (sign))
    {
      yylval = sign - '0' + more;
      return NUMBER;
    }
  return sign == '\n' ? 0 : sign;
}
static void yyerror (const char *what)
{
  printf ("said: %s\n", what);
}
int main (void)
{
  int count = 0, ended;
  counted = &count;
  ended = yyparse ();
  printf ("ended %d, %d tokens\n", ended, count);
  return ended;
}
