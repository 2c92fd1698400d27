%{
#include "lexer.h"
static int yylex (void);
static void yyerror (const char *what);
%}
%union {
  int number;
  double half;
}
%token <number> NUMBER
%type <number> triple
%type <half> last
%%
all :
    | all triple ';'  { printf ("triple %d\n", $2); }
    ;
triple : NUMBER                 { $<half>$ = $1 / 2.0; printf ("half %.1f\n", $<half>$); }
         NUMBER                 { $<number>$ = $1 + $3; printf ("%.1f %d\n", $<half>2, $3); }
         { printf ("third %d\n", $<number>4); }
         last                   { $$ = $<number>4 * 10 + (int) $6; printf ("%.1f\n", $<half>2); }
       ;
last : { $<number>$ = 5; } NUMBER  { $$ = $<number>1 + $2; }
     ;
%%
static int yylex (void)
{
  int sign = read_sign ();

  if (IS_DIGIT (sign))
    {
      yylval.number = sign - '0';
      return NUMBER;
    }
  return sign == '\n' ? 0 : sign;
}
static void yyerror (const char *what)
{
  printf ("said: %s\n", what);
}
int main (void)
{
  int ended = yyparse ();
  printf ("ended %d\n", ended);
  return ended;
}
