%{
#include "lexer.h"
struct YYLTYPE;
static int yylex (void);
static void yyerror (struct YYLTYPE *place, int *freed, const char *what);
%}
%locations
%parse-param { int *freed }
%union { int number; char letter; }
%token <number> NUMBER
%token <letter> LETTER
%type <number> many
%destructor { ++*freed; printf ("free %d at %d\n", $$, @$.first_column); } <number>
%destructor { *freed += 10; printf ("free %c\n", $$); } LETTER
%%
all : many LETTER NUMBER   { printf ("%d %c\n", $1, $2); }
    ;
many : NUMBER              { $$ = $1; }
     | many NUMBER         { $$ = $1 + $2; }
     ;
%%
static int yylex (void)
{
  static int at;
  int sign = read_sign ();

  yylloc.first_column = yylloc.last_column = ++at;
  if (IS_DIGIT (sign))
    {
      yylval.number = sign - '0';
      return NUMBER;
    }
  yylval.letter = (char) sign;
  return sign == '\n' ? 0 : IS_LETTER (sign) ? LETTER : sign;
}
static void yyerror (YYLTYPE *place, int *freed, const char *what)
{
  printf ("at %d: %s, freed %d\n", place->first_column, what, *freed);
}
int main (void)
{
  int freed = 0, ended = yyparse (&freed);
  printf ("ended %d, freed %d\n", ended, freed);
  return ended;
}
