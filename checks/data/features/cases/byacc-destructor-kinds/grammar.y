%{
#include "lexer.h"
static int yylex (void);
static void yyerror (const char *what);
%}
%union {
  int number;
  int letter;
}
%token <number> NUMBER
%token <letter> LETTER
%token PLAIN
%type <number> pair
%destructor { printf ("free %d\n", $$.number); } <>
%destructor { printf ("free tagged %d\n", (int) sizeof $$); } <*>
%destructor { printf ("free letter %c\n", $$); } LETTER
%%
all :
    | all pair ';'    { printf ("pair %d\n", $2); }
    | all error ';'   { printf ("recovered\n"); yyerrok; }
    ;
pair : NUMBER LETTER PLAIN  { $$ = $1 * 1000 + $2; }
     | '(' pair ')'         { $$ = $2; }
     ;
%%
static int yylex (void)
{
  int sign = read_sign ();

  if (IS_DIGIT (sign))
    {
      yylval.number = sign - '0';
      return NUMBER;
    }
  yylval.letter = sign;
  if (sign == 'x')
    return PLAIN;
  if (IS_LETTER (sign))
    return LETTER;
  return sign == '\n' ? 0 : sign;
}
static void yyerror (const char *what)
{
  printf ("said: %s\n", what);
}
int main (void)
{
  return yyparse ();
}
