%define api.pure full
%code {
#include "lexer.h"
static int yylex (YYSTYPE *yylval, int count[2] /* of count */, int *more);
static void yyerror (int count[2], int *more, const char *what);
}
%parse-param { int count[2] /* of signs, and of numbers: count */ }
%lex-param { int count[2] /* how many: count */ }
%param { int
         *more /* what there is more */
}
%token NUMBER
%%
all : NUMBER NUMBER   { printf ("numbers %d %d, %d\n", $1, $2, *more); }
    ;
%%
static int yylex (YYSTYPE *yylval, int count[2], int *more)
{
  int sign = read_sign ();

  ++count[0];
  ++*more;
  if (IS_DIGIT (sign))
    {
      ++count[1];
      *yylval = sign - '0';
      return NUMBER;
    }
  return sign == '\n' ? 0 : sign;
}
static void yyerror (int count[2], int *more, const char *what)
{
  printf ("said: %s, %d of %d, %d\n", what, count[1], count[0], *more);
}
int main (void)
{
  int count[2] = { 0, 0 }, more = 7, ended = yyparse (count, &more);
  return ended;
}
