%define api.value.type union
%code {
#include "lexer.h"
static int yylex (void);
static void yyerror (const char *what);
}
%token <int> NUMBER "number"
%token <const char *> WORD
%type <double> sum
%type <struct pair> pair
%code requires {
struct pair { int first; int second; };
}
%%
all : sum             { printf ("sum %.2f\n", $1); }
    ;
sum : NUMBER          { $$ = $1 / 4.0; }
    | sum '+' NUMBER  { $$ = $1 + $3; }
    | sum '+' pair    { $$ = $1 + $3.first * $3.second; }
    ;
pair : WORD           { printf ("%s\n", $1); $$.first = 3; $$.second = 5; }
     ;
%%
static int yylex (void)
{
  int sign = read_sign ();

  if (IS_DIGIT (sign))
    {
      yylval.NUMBER = sign - '0';
      return NUMBER;
    }
  if (IS_LETTER (sign))
    {
      yylval.WORD = "a word";
      return WORD;
    }
  return sign == '\n' ? 0 : sign;
}
static void yyerror (const char *what)
{
  printf ("said: %s\n", what);
}
int main (void)
{
  return yyparse ();
}
