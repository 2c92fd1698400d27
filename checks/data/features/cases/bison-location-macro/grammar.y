%{
#include "plain.h"
struct place { int from, to; };
#define YYLTYPE struct place
#define YYLLOC_DEFAULT(Current, Rhs, N) \
  ((Current).from = (N) ? YYRHSLOC (Rhs, 1).from : 0, (Current).to = (N))
%}
%locations
%token NUMBER
%%
all : NUMBER NUMBER   { printf ("%d to %d, %d to %d\n", @1.from, @1.to, @$.from, @$.to); }
    ;
%%
static int yylex (void)
{
  static int at;
  int sign = read_sign ();

  yylloc.from = at++;
  yylloc.to = at;
  yylval = sign - '0';
  return sign == '\n' ? 0 : NUMBER;
}
static void yyerror (const char *what)
{
  printf ("said at %d: %s\n", yylloc.from, what);
}
int main (void)
{
  return yyparse ();
}
