%{
#include <stdio.h>
struct YYLTYPE;
int yylex (void);
void yyerror (struct YYLTYPE *place, const char *what);
%}
%locations
%token NUMBER
%%
all : NUMBER NUMBER   { printf ("%d at %d, %d at %d\n", $1, @1.first_line, $2, @2.first_line); }
    ;
%%
int main (void)
{
  return calc_parse ();
}
