%code top {
static int order_top = 5;
}
%{
#include "lexer.h"
static int yylex (void);
static void yyerror (const char *what);
%}
%code requires {
struct value { int number; };
}
%code provides {
int described (struct value *value);
}
%code {
static int order_plain = 10 * 7;
}
%union {
  int number;
}
%token <number> NUMBER
%%
all : NUMBER NUMBER
      {
        struct value one, other;
        one.number = $1;
        other.number = $2;
        printf ("%d %d\n", described (&one), described (&other));
      }
    ;
%%
static int yylex (void)
{
  int sign = read_sign ();

  yylval.number = sign - '0';
  return sign == '\n' ? 0 : NUMBER;
}
static void yyerror (const char *what)
{
  printf ("said: %s\n", what);
}
int main (void)
{
  printf ("%d %d\n", order_top, order_plain);
  return yyparse ();
}
