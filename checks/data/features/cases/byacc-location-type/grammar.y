%{
#include "lexer.h"
typedef struct place { int from, to; } YYLTYPE;
#define YYLTYPE_IS_DECLARED 1
#define YYLLOC_DEFAULT(loc, rhs, n)             \
  do                                            \
    {                                           \
      (loc).from = (n) ? (rhs)[1].from : -1;    \
      (loc).to = (rhs)[n].to;                   \
    }                                           \
  while (0)
static int yylex (void);
static void yyerror (YYLTYPE *loc, const char *what);
%}
%locations
%token NUMBER
%%
all : sum none        { printf ("%d, %d to %d; none %d\n", $1, @1.from, @1.to, @2.from); }
    | error ';'       { printf ("wrong %d to %d\n", @1.from, @1.to); }
    ;
none :
     ;
sum : NUMBER
    | sum '+' NUMBER  { $$ = $1 + $3; printf ("%d to %d, %d\n", @$.from, @$.to, @2.from); }
    ;
%%
static int yylex (void)
{
  static int at;
  int sign = read_sign ();

  yylloc.from = at++;
  yylloc.to = at;
  if (IS_DIGIT (sign))
    {
      yylval = sign - '0';
      return NUMBER;
    }
  return sign == '\n' ? 0 : sign;
}
static void yyerror (YYLTYPE *loc, const char *what)
{
  printf ("said at %d: %s\n", loc->from, what);
}
int main (void)
{
  return yyparse ();
}
