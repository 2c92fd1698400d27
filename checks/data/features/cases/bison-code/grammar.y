%code top {
#define ORDER_TOP __LINE__
static int order_top = __LINE__;
}
%code requires {
struct value { int number; };
}
%union {
  struct value value;
}
%code provides {
int described (YYSTYPE *value);
#define SHOWN "provided"
}
%code {
#include "lexer.h"
static int yylex (void);
static void yyerror (const char *what);
static int order_plain = __LINE__ + (NUMBER == 500);
static YYSTYPE kept;
}
%code {
static int order_last = __LINE__;
}
%token <value> NUMBER 500
%%
all : NUMBER NUMBER
      {
        kept.value = $1;
        printf ("%s %s %d\n", SHOWN, __FILE__, described (&kept));
        kept.value = $2;
        printf ("%d\n", described (&kept));
      }
    ;
%%
static int yylex (void)
{
  int sign = read_sign ();

  yylval.value.number = sign - '0';
  return sign == '\n' ? 0 : NUMBER;
}
static void yyerror (const char *what)
{
  printf ("said: %s\n", what);
}
int main (void)
{
  printf ("%d %d %d %d\n", order_top, ORDER_TOP, order_plain, order_last);
  return yyparse ();
}
