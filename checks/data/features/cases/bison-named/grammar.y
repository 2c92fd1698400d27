%require "3.0"
%locations
%{
#include "lexer.h"
static int yylex (void);
static void yyerror (const char *what);
%}
%union {
  int number;
  char sign;
}
%token <number> NUMBER
%token LET "let"
%type <number> sum product some.thing
%type <sign> op-sign
%%
all[whole] : sum[result]
      { printf ("result %d at %d\n", $result, @result.first_column); (void) @whole; }
    ;
sum : product
    | sum[left] op-sign product[right]
      {
        $$ = $[op-sign] == '+' ? $left + $right : $left - $right;
        printf ("%d%c%d at %d\n", $left, $[op-sign], $[right], @[op-sign].first_column);
      }
    ;
op-sign[it] : '+'         { $it = '+'; @$.first_column = 70 + @1.first_column; }
    | '-'                 { $it = '-'; }
    ;
product : some.thing
    | product[left] '*' some.thing   { $$ = $left * $[some.thing]; $<number>left = 0; }
    | product[left] '/' some.thing[x]
      {
        if ($x == 0)
          {
            printf ("nothing at %d to %d\n", @x.first_column, @x.last_column);
            $$ = $left;
          }
        else
          $$ = $left / $x;
      }
    ;
some.thing : NUMBER[n]   { $$ = $n; }
    | '('[open] { $<number>$ = @open.first_column; }[place] sum ')'
      { $$ = $sum + $<number>place; }
    | "let"             { $$ = 0; }
    ;
%%
static int yylex (void)
{
  int sign = read_sign ();

  yylloc.first_column = yylloc.last_column++;
  if (IS_DIGIT (sign))
    {
      yylval.number = sign - '0';
      return NUMBER;
    }
  return sign == '\n' ? 0 : sign;
}
static void yyerror (const char *what)
{
  printf ("said: %s\n", what);
}
int main (void)
{
  return yyparse ();
}
