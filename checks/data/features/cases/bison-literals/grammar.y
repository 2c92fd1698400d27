%{
#include "lexer.h"
static int yylex (void);
static void yyerror (const char *what);
%}
%union {
  int number;
  char sign;
}
%token <number> NUMBER
%token AND "&&"
%type <number> sum
%type <sign> '+' '-' "&&"
%nonassoc "&&"
%left '+'
%left '-'
%token '*'
%%
all : sum             { printf ("= %d\n", $1); }
    ;
sum : NUMBER
    | sum '+' sum     { printf ("%d%c%d\n", $1, $2, $3); $$ = $1 + $3; }
    | sum '-' sum     { printf ("%d%c%d\n", $1, $2, $3); $$ = $1 - $3; }
    | sum "&&" sum    { printf ("%d%c%d\n", $1, $2, $3); $$ = $1 && $3; }
    | '*' sum %prec "&&" { $$ = $2; }
    ;
%%
static int yylex (void)
{
  int sign = read_sign ();

  if (IS_DIGIT (sign))
    {
      yylval.number = sign - '0';
      return NUMBER;
    }
  yylval.sign = (char) sign;
  return sign == '\n' ? 0 : sign == '&' ? AND : sign;
}
static void yyerror (const char *what)
{
  printf ("said: %s\n", what);
}
int main (void)
{
  return yyparse ();
}
