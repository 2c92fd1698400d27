// A file whose parts are spelled in many ways.
%require "3.0";
%{
#include "lexer.h"
static int yylex (void);
static void yyerror (const char *what);
%}
%union { int number; };
%token A 0x200 B, C 'd' /* a
 comment */ 'e' // another
%token <number> F "f" G
       <number> H "h" ;
%start begin
%%
// rules
begin: A B C 'd' 'e' F "g" H { printf ("%d %d %d\n", $6 + $8, A, B != C); } ;;
begin: 'x'
%token G "g"
;
%%
static int yylex (void)
{
  int sign = read_sign ();

  yylval.number = sign;
  switch (sign)
    {
    case 'a': return A;
    case 'b': return B;
    case 'c': return C;
    case 'f': return F;
    case 'g': return G;
    case 'h': return H;
    case '\n': return 0;
    default: return sign;
    }
}
static void yyerror (const char *what)
{
  printf ("said: %s\n", what);
}
int main (void)
{
  return yyparse ();
}
