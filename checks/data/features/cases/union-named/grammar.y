%{
#include "lexer.h"
static int yylex (void);
static void yyerror (const char *what);
%}
%union VALUE {
  int number;
  const char *word;
}
%{
void show (const union VALUE *value);
%}
%token <number> NUMBER
%token <word> WORD
%type <number> sum item
%%
all : sum           { YYSTYPE it; it.number = $1; show (&it); }
    ;
sum : item
    | sum '+' item  { $$ = $1 * 10 + $3; }
    ;
item : NUMBER
     | WORD         { printf ("%s\n", $1); $$ = 7; }
     ;
%%
static int yylex (void)
{
  int sign = read_sign ();

  if (IS_DIGIT (sign))
    {
      yylval.number = sign - '0';
      return NUMBER;
    }
  if (IS_LETTER (sign))
    {
      yylval.word = "a word";
      return WORD;
    }
  return sign == '\n' ? 0 : sign;
}
static void yyerror (const char *what)
{
  printf ("said: %s\n", what);
}
int main (void)
{
  return yyparse ();
}
