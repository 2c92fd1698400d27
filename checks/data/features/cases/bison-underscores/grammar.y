%pure_parser
%error_verbose
%no_lines
%token_table
%expect_rr 0
%name_prefix = "calc_"
%{
#include "lexer.h"
static int calc_lex (int *value);
static void calc_error (const char *what);
%}
%token NUMBER
%binary '<'
%%
all : sum             { printf ("%d %d\n", $1, yytname[0] != 0); }
    ;
sum : NUMBER
    | sum '<' sum     { $$ = $1 < $3; }
    ;
%%
static int calc_lex (int *value)
{
  int sign = read_sign ();

  *value = sign - '0';
  return sign == '\n' ? 0 : sign == '<' ? sign : NUMBER;
}
static void calc_error (const char *what)
{
  printf ("said: %.12s\n", what);
}
int main (void)
{
  return calc_parse ();
}
