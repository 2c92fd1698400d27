%{
#include "lexer.h"
static int yylex (void);
static void yyerror (const char *what);
%}
%union {
  int whole;
  double real;
  char sign;
}
%token <whole> NUMBER
%token <sign> SIGN
%type <real> pair
%%
list : pair       { printf ("first %.2f\n", $1); }
     | list pair  { printf ("next %.2f, %.2f\n", $2, $<real>2); }
     ;
pair : NUMBER mark NUMBER
       { $<real>$ = $<whole>1 * 100 + $<whole>3 + $<real>2; }
     ;
mark : SIGN  { char it = $<sign>1; $<real>$ = it == 'x' ? 0.5 : 0.25; printf ("%c\n", $1); }
     ;
%%
static int yylex (void)
{
  int sign = read_sign ();

  if (IS_DIGIT (sign))
    {
      yylval.whole = sign - '0';
      return NUMBER;
    }
  if (IS_LETTER (sign))
    {
      yylval.sign = (char) sign;
      return SIGN;
    }
  return sign == '\n' ? 0 : sign;
}
static void yyerror (const char *what)
{
  printf ("said: %s\n", what);
}
int main (void)
{
  return yyparse ();
}
