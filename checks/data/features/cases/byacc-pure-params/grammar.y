%pure-parser
%lex-param { int *count }
%parse-param { int *count }
%{
#include "lexer.h"
%}
%union { int number; }
%token <number> NUMBER
%type <number> sum
%{
static int yylex (YYSTYPE *value, int *count);
static void yyerror (int *count, const char *what);
%}
%%
all : sum             { printf ("sum %d\n", $1); }
    | error '+'       { printf ("wrong\n"); }
    ;
sum : NUMBER
    | sum '+' NUMBER  { $$ = $1 + $3; }
    ;
%%
static int yylex (YYSTYPE *value, int *count)
{
  int sign = read_sign ();

  ++*count;
  if (IS_DIGIT (sign))
    {
      value->number = sign - '0';
      return NUMBER;
    }
  return sign == '\n' ? 0 : sign;
}
static void yyerror (int *count, const char *what)
{
  printf ("said after %d: %s\n", *count, what);
}
int main (void)
{
  int count = 0, ended = yyparse (&count);
  printf ("ended %d, %d tokens\n", ended, count);
  return ended;
}
