%require "3.8"
%define parse.error verbose
%code {
#include "lexer.h"
static yytoken_kind_t next_kind (void);
static int yylex (void);
static void yyerror (const char *what);
}
%token NUMBER
%%
all : %empty          { printf ("begun, %d\n", yychar == YYEMPTY); }
    | all pair        { printf ("pair %d\n", $2); }
    | all error ';'   { printf ("recovered, errors %d\n", yynerrs); yyerrok; }
    ;
pair : NUMBER NUMBER ';' { $$ = 10 * $1 + $2; }
     ;
%%
static yytoken_kind_t next_kind (void)
{
  int sign = read_sign ();

  yylval = sign - '0';
  switch (sign)
    {
    case '\n': return YYEOF;
    case '?': printf ("no ?\n"); return YYerror;
    case 'u': return YYUNDEF;
    case '%': return (yytoken_kind_t) 400;
    case ';': return (yytoken_kind_t) ';';
    default: return NUMBER;
    }
}
static int yylex (void)
{
  yytoken_kind_t kind = next_kind ();
  enum yytokentype same = kind;

  return same;
}
static void yyerror (const char *what)
{
  printf ("said: %s\n", what);
}
int main (void)
{
  int ended = yyparse ();
  printf ("%d %d %d\n", YYEMPTY, YYEOF, YYerror);
  return ended;
}
