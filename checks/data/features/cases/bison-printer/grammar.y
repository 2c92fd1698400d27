%locations
%define parse.trace
%parse-param { int *count }
%code {
#include "lexer.h"
static int yylex (void);
static void yyerror (int *count, const char *what);
}
%union {
  int number;
  char letter;
}
%token <number> NUMBER "number"
%token <letter> LETTER
%token PLAIN
%type <number> item
%printer { fprintf (yyo, "%d %d", $$, @$.first_line + *count); } NUMBER
%printer { fprintf (yyo, "%c", $$); } <letter>
%printer { fprintf (yyo, "tagged"); } <*>
%printer { fprintf (yyo, "untagged"); } <>
%%
all :
    | all item        { printf ("item %d %d\n", $2, *count += 1); }
    | all PLAIN
    ;
item : NUMBER
     | LETTER         { $$ = $1; }
     ;
%%
static int yylex (void)
{
  int sign = read_sign ();

  if (IS_DIGIT (sign))
    {
      yylval.number = sign - '0';
      return NUMBER;
    }
  yylval.letter = (char) sign;
  return sign == '\n' ? 0 : LETTER;
}
static void yyerror (int *count, const char *what)
{
  printf ("said: %s %d\n", what, *count);
}
int main (void)
{
  int count = 0;
  yydebug = 0;
  return yyparse (&count);
}
