%{
#include "lexer.h"
static int yylex (void);
static void yyerror (const char *what);
%}
%union {
  int number;
  int letter;
  int sum;
}
%token <number> NUMBER
%token <letter> LETTER
%type <sum> sum
%destructor { printf ("free number %d\n", $$); } NUMBER
%destructor { printf ("free letter %c\n", $$); } <letter>
%type <number> stop
%destructor { printf ("free sum %d, %d\n", $$, $<number>$); } sum
%%
all :
    | all line
    ;
line : sum ';'        { printf ("line %d\n", $1); }
     | sum stop
     | error ';'      { printf ("recovered\n"); yyerrok; }
     ;
stop : '!'            { printf ("no more\n"); $$ = 1; YYABORT; }
     ;
sum : NUMBER          { $$ = $1; }
    | LETTER          { $$ = $1 - 'a' + 10; }
    | sum '+' NUMBER  { $$ = $1 + $3; }
    | sum '+' LETTER  { $$ = $1 + $3 - 'a' + 10; }
    | sum '+' '(' NUMBER LETTER ')'  { $$ = $1; }
    ;
%%
static int yylex (void)
{
  int sign = read_sign ();

  if (IS_DIGIT (sign))
    {
      yylval.number = sign - '0';
      return NUMBER;
    }
  if (IS_LETTER (sign))
    {
      yylval.letter = sign;
      return LETTER;
    }
  return sign == '\n' ? 0 : sign;
}
static void yyerror (const char *what)
{
  printf ("said: %s\n", what);
}
int main (void)
{
  return yyparse ();
}
