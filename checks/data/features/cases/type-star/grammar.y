%{
#include "lexer.h"
#define YYSTYPE const char *
static int yylex (void);
static void yyerror (const char *what);
%}
%token WORD
%%
all : word            { printf ("%s\n", $1); }
    | all word        { printf ("%s after %s\n", $2, $1); $$ = $2; }
    ;
word : WORD
     | ','            { $$ = "none"; }
     ;
%%
static const char *words[] = { "one", "two", "three" };
static int yylex (void)
{
  int sign = read_sign ();

  if (IS_LETTER (sign))
    {
      yylval = words[(sign - 'a') % 3];
      return WORD;
    }
  return sign == '\n' ? 0 : sign;
}
static void yyerror (const char *what)
{
  printf ("said: %s\n", what);
}
int main (void)
{
  return yyparse ();
}
