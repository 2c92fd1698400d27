%require "3.0"
%{
#include "lexer.h"
static int yylex (void);
static void yyerror (const char *what);
%}
%union {
  int number;
  int letter;
  int sum;
}
%token <number> NUMBER
%token <letter> LETTER
%token PLAIN
%type <sum> sum '('
%type <number> other
%destructor { printf ("free number %d\n", $$); } NUMBER
%destructor { printf ("free letter %c\n", $$); } <letter>
%destructor { printf ("free sum %d, %d\n", $$, $<number>$); } sum '('
%destructor { printf ("free tagged %d\n", (int) sizeof $$); } <*>
%destructor { printf ("free untagged %d\n", (int) sizeof $$); } <>
%%
all : %empty          { $<sum>$ = 0; }
    | all line        { $<sum>$ = $<sum>1 + 1; }
    ;
line : sum ';'        { $<sum>$ = 0; printf ("line %d\n", $1); }
     | sum stop
     | error ';'      { $<sum>$ = 0; printf ("recovered\n"); yyerrok; }
     ;
stop : '!'            { $<sum>$ = 0; printf ("no more\n"); YYABORT; }
     ;
sum : NUMBER          { $$ = $1; }
    | LETTER          { $$ = $1 - 'a' + 10; }
    | sum '+' NUMBER  { $$ = $1 + $3; }
    | sum '+' LETTER  { $$ = $1 + $3 - 'a' + 10; }
    | sum '+' '(' other
    | sum '(' '(' NUMBER LETTER ')'  { $$ = $1; }
    ;
other : PLAIN         { $$ = 0; }
      ;
%%
static int yylex (void)
{
  int sign = read_sign ();

  yylval.sum = sign;
  if (IS_DIGIT (sign))
    {
      yylval.number = sign - '0';
      return NUMBER;
    }
  if (IS_LETTER (sign))
    {
      yylval.letter = sign;
      return LETTER;
    }
  return sign == '\n' ? 0 : sign;
}
static void yyerror (const char *what)
{
  printf ("said: %s\n", what);
}
int main (void)
{
  return yyparse ();
}
