%require "3.0"
%{
#include "plain.h"
%}
%token NUMBER
%nterm <number> pair
%nterm rest
%union { int number; }
%token <number> NUMBER
%%
all : pair rest
    ;
pair : NUMBER more    { $$ = $1; printf ("first %d\n", $$); }
     ;
more : %empty
     | ',' NUMBER     { printf ("more %d\n", $2); }
     ;
rest : %empty { printf ("none\n"); }
     | NUMBER         { printf ("rest %d\n", $1); }
     ;
%%
static int yylex (void)
{
  int sign = read_sign ();

  yylval.number = sign - '0';
  return sign == '\n' ? 0 : sign == ',' ? ',' : NUMBER;
}
static void yyerror (const char *what)
{
  printf ("said: %s\n", what);
}
int main (void)
{
  return yyparse ();
}
