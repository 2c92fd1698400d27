%{
#include <string.h>
#include "lexer.h"
static int yylex (void);
static void yyerror (const char *what);
/* flex makes macros of such names. */
#define yytext no_name->of_the_parser
#define yyleng no_name->of_the_parser
%}
%error-verbose
%token NUMBER "a number" IF "if" NAME
%token END "end" OPEN "(" PLUS "+" BACK "\\ \"x\""
%%
all : sum               { printf ("sum %d\n", $1); }
    ;
sum : item
    | sum "+" item      { $$ = $1 + $3; }
    ;
item : "a number"
     | NAME             { $$ = 0; }
     | "(" sum ')'      { $$ = $2; }
     | BACK item        { $$ = $2; }
     ;
other : IF END
      ;
%%
static int word_of (int sign)
{
  int word = sign == 'i' ? IF : sign == 'e' ? END : NAME;

  do
    sign = getchar ();
  while (IS_LETTER (sign));
  return word;
}
static int yylex (void)
{
  int sign = read_sign ();

  if (IS_DIGIT (sign))
    {
      yylval = sign - '0';
      return NUMBER;
    }
  if (IS_LETTER (sign))
    return word_of (sign);
  return sign == '\n' ? 0 : sign == '(' ? OPEN : sign == '+' ? PLUS : sign;
}
static void yyerror (const char *what)
{
  printf ("said: %s\n", what);
}
int main (void)
{
  int ended = yyparse ();
  printf ("ended %d, length %d\n", ended, (int) strlen ("x"));
  return ended;
}
