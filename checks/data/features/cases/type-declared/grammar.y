%{
#include "lexer.h"
typedef struct { int number; double real; } YYSTYPE;
#define YYSTYPE_IS_DECLARED 1
static int yylex (void);
static void yyerror (const char *what);
%}
%token <number> NUMBER
%type <real> sum
%%
all : sum             { printf ("sum %.1f\n", $1); }
    ;
sum : NUMBER          { $$ = $1 * 1.5; }
    | sum '+' NUMBER  { $$ = $1 + $3; }
    ;
%%
static int yylex (void)
{
  int sign = read_sign ();

  yylval.number = sign - '0';
  return sign == '\n' ? 0 : sign == '+' ? '+' : NUMBER;
}
static void yyerror (const char *what)
{
  printf ("said: %s\n", what);
}
int main (void)
{
  return yyparse ();
}
