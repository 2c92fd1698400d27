%locations
%define api.pure full
%define api.value.type union
%parse-param { int *freed }
%token <int> NUMBER
%token <char> LETTER
%type <struct pair> pair
%code requires {
struct pair { int number; char letter; };
}
%destructor { ++*freed; printf ("free %d at %d\n", $$, @$.first_column); } <int>
%destructor { ++*freed; printf ("free %c at %d\n", $$, @$.first_column); } <char>
%destructor {
  *freed += 10;
  printf ("free %d%c at %d\n", $$.number, $$.letter, @$.first_column);
} pair
%code {
#include "lexer.h"
static int yylex (YYSTYPE *value, YYLTYPE *place);
static void yyerror (YYLTYPE *place, int *freed, const char *what);
}
%%
all : pair LETTER     { printf ("%d%c%c\n", $1.number, $1.letter, $2); *freed = 100; }
    ;
pair : NUMBER LETTER  { $$.number = $1; $$.letter = $2; }
     ;
%%
static int yylex (YYSTYPE *value, YYLTYPE *place)
{
  int sign = read_sign ();

  place->first_column = place->last_column++;
  if (IS_DIGIT (sign))
    {
      value->NUMBER = sign - '0';
      return NUMBER;
    }
  if (IS_LETTER (sign))
    {
      value->LETTER = (char) sign;
      return LETTER;
    }
  return sign == '\n' ? YYEOF : sign;
}
static void yyerror (YYLTYPE *place, int *freed, const char *what)
{
  printf ("said at %d: %s %d\n", place->first_column, what, *freed);
}
int main (void)
{
  int freed = 0, ended = yyparse (&freed);
  printf ("ended %d, freed %d\n", ended, freed);
  return ended;
}
