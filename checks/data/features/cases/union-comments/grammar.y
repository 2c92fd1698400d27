%{
#include "lexer.h"
static int yylex (void);
static void yyerror (const char *what);
/* "a string", 'c' */
static const char *odd = "/* no comment";
%}
%union {            /* a brace } in a comment */
  int number;       /* and one { more, and a quote ' */
  struct { struct { int inner; } deep[2]; } nested;
}
%token <number> NUMBER   /* %token <none> NONE */
%type <nested> all       /* '} */
%%
/* rules: | ; %% */
all : NUMBER /* the first ' */ NUMBER
      {
        $$.deep[0].inner = $1;
        $$.deep[1].inner = $2;   /* { $9 */
        printf ("%d %d %s\n", $1, $2, odd);
      }
%%
static int yylex (void)
{
  int sign = read_sign ();

  yylval.number = sign - '0';
  return sign == '\n' ? 0 : NUMBER;
}
static void yyerror (const char *what)
{
  printf ("said: %s\n", what);
}
int main (void)
{
  return yyparse ();
}
