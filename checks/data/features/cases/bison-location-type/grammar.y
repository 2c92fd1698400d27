%define api.location.type {struct place}
%locations
%code requires {
struct place { int from, to; };
}
%code {
#include "lexer.h"
static int yylex (void);
static void yyerror (const char *what);
#define YYLLOC_DEFAULT(Current, Rhs, N)                             \
  do                                                                \
    {                                                               \
      (Current).from = (N) ? YYRHSLOC (Rhs, 1).from : -1;           \
      (Current).to = (N) ? YYRHSLOC (Rhs, N).to : YYRHSLOC (Rhs, 0).to; \
    }                                                               \
  while (0)
}
%token NUMBER
%%
all : sum none        { printf ("sum %d, %d to %d, ", $1, @1.from, @1.to);
                        printf ("none %d to %d\n", @2.from, @2.to); }
    | error '+'       { printf ("wrong %d to %d\n", @1.from, @1.to); }
    ;
none : %empty
     ;
sum : NUMBER
    | sum '+' NUMBER  { $$ = $1 + $3; printf ("%d to %d\n", @$.from, @$.to); @$.from = 50; }
    ;
%%
static int yylex (void)
{
  static int at;
  int sign = read_sign ();

  yylloc.from = at++;
  yylloc.to = at;
  yylval = sign - '0';
  return sign == '\n' ? 0 : sign == '+' ? '+' : NUMBER;
}
static void yyerror (const char *what)
{
  printf ("said at %d: %s\n", yylloc.from, what);
}
int main (void)
{
  return yyparse ();
}
