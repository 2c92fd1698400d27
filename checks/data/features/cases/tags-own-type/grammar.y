%{
#include "lexer.h"
union value
{
  int number;
  char letter;
};
#define YYSTYPE union value
static int yylex (void);
static void yyerror (const char *what);
%}
%token <number> NUMBER
%token <letter> LETTER
%type <number> all item
%%
all : item
    | all item        { $$ = $1 * 1000 + $2; printf ("%d\n", $$); }
    ;
item : NUMBER         { $$ = $1; }
     | LETTER         { $$ = $1; printf ("%c\n", $1); }
     ;
%%
static int yylex (void)
{
  int sign = read_sign ();

  if (IS_DIGIT (sign))
    {
      yylval.number = sign - '0';
      return NUMBER;
    }
  if (IS_LETTER (sign))
    {
      yylval.letter = (char) sign;
      return LETTER;
    }
  return sign == '\n' ? 0 : sign;
}
static void yyerror (const char *what)
{
  printf ("said: %s\n", what);
}
int main (void)
{
  return yyparse ();
}
