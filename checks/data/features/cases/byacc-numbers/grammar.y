%{
#include "plain.h"
static void show (void);
%}
%union {
  int number;
}
%type <number> C all
%token A 300 B 258 LATE 40000
%right LAST
%token <number> NUMBER C
%%
all : NUMBER          { show (); $$ = $1; }
    | A B C LATE LAST { $$ = $3; }
    ;
%%
static void show (void)
{
  printf ("%d %d %d %d %d %d\n", A, B, C, LATE, LAST, NUMBER);
#if ! defined A || ! defined C || ! defined LAST
  printf ("no macro for a token\n");
#endif
}
static int yylex (void)
{
  int sign = read_sign ();

  if (IS_DIGIT (sign))
    {
      yylval.number = sign - '0';
      return NUMBER;
    }
  return sign == '\n' ? 0 : sign;
}
static void yyerror (const char *what)
{
  printf ("said: %s\n", what);
}
int main (void)
{
  return yyparse ();
}
