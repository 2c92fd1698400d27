%{
#include "lexer.h"
static double values[26];
static int yylex (void);
static void yyerror (const char *what);
%}
%union {
  double number;
  int letter;
  struct { int from, to; } pair;
}
%token <number> NUMBER
%token <letter> LETTER
%type <number> sum product
%type <letter> place
%type <pair> line
%start lines
%%
lines : line            { printf ("from %d to %d\n", $1.from, $1.to); }
      | lines ';' line  { printf ("then from %d to %d\n", $3.from, $3.to); }
      ;
line : place '=' sum    { values[$1] = $3; $$.from = $1; $$.to = (int) $3; }
     | sum              { $$.from = -1; $$.to = (int) ($1 * 2); }
     ;
place : LETTER ;
sum : sum '+' product   { $$ = $1 + $3; }
    | product
    ;
product : product '*' NUMBER  { $$ = $1 * $3; }
        | product '*' LETTER  { $$ = $1 * values[$3]; }
        | NUMBER              { $$ = $1 + 0.25; }
        | LETTER              { $$ = values[$1]; }
        ;
%%
static int yylex (void)
{
  int sign = read_sign ();

  if (IS_DIGIT (sign))
    {
      yylval.number = sign - '0';
      return NUMBER;
    }
  if (IS_LETTER (sign))
    {
      yylval.letter = sign - 'a';
      return LETTER;
    }
  return sign == '\n' ? 0 : sign;
}
static void yyerror (const char *what)
{
  printf ("said: %s\n", what);
}
int main (void)
{
  int ended = yyparse ();
  printf ("ended %d, errors %d\n", ended, yynerrs);
  return ended;
}
