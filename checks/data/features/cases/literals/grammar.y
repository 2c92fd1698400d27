%{
#include <stdio.h>
static int yylex (void);
static void yyerror (const char *what);
static const char *text = "brace } \" $$ $1 { @1 %%";
%}
%token WORD 300 OTHER NEXT 400 LAST
%left '\''
%%
all : signs '\n'    { printf ("%s, %d in all, /* $1 */ %c%c\n", text, $1, '}', '{'); }
    ;
signs :             { $$ = 0; }
      | signs '\''  { $$ = $1 + 1; /* it's $2 } */ printf ("quote '}' $2 %d\n", '\''); }
      | signs '"'   { $$ = $1 + 1; printf ("double \"}\n"); }
      | signs '\\'  { $$ = $1 + 1; printf ("back \\"); printf ("\n"); }
      | signs 'a'   { $$ = $1 + 1; { int inner = $1; { printf ("a %d\n", inner); } } }
      | signs '\142' { $$ = $1 + 1; printf ("b\n"); }
      | signs 'c'   { $$ = $1 + 1; printf ("c\n"); }
      | signs 'd'   { $$ = $1 + 1; printf ("d\n"); }
      ;
%%
static int yylex (void)
{
  int sign = getchar ();
  return sign == EOF ? 0 : sign;
}
static void yyerror (const char *what)
{
  printf ("said: %s\n", what);
}
int main (void)
{
  printf ("%d %d\n", WORD, NEXT);
  return yyparse ();
}
