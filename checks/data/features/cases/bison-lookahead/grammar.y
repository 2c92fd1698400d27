%{
#include "plain.h"
%}
%locations
%token NUMBER
%left '+'
%%
all : sum             { printf ("sum %d, ahead %d\n", $1, yychar); }
    ;
sum : one
    | sum '+' one     { printf ("ahead %d, %d\n", yychar == YYEMPTY, @1.first_line); $$ = $1 + $3; }
    ;
one : NUMBER rest     { $$ = $1; }
    ;
rest : %empty         { printf ("ahead %d, value %d\n", yychar, yychar == YYEOF ? 0 : yylval);
                        $$ = 0; }
     | '!'            { $$ = 0; }
     ;
%%
static int yylex (void)
{
  int sign = read_sign ();

  yylval = sign;
  return sign == '\n' ? 0 : sign == '+' || sign == '!' ? sign : (yylval -= '0', NUMBER);
}
static void yyerror (const char *what)
{
  printf ("said: %s\n", what);
}
int main (void)
{
  return yyparse ();
}
