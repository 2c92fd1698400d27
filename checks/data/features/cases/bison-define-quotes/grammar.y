%code requires { struct value { int number; }; }
%define api.pure "full"
%define api.prefix "calc_"
%define api.value.type {struct value}
%define parse.error "verbose"
%code {
#include "lexer.h"
static int calc_lex (struct value *value);
static void calc_error (const char *what);
}
%token NUMBER
%%
all : sum             { printf ("sum %d\n", $1.number); }
    ;
sum : NUMBER
    | sum '+' NUMBER  { $$.number = $1.number + $3.number; }
    ;
%%
static int calc_lex (struct value *value)
{
  int sign = read_sign ();

  value->number = sign - '0';
  return sign == '\n' ? 0 : sign == '+' ? sign : NUMBER;
}
static void calc_error (const char *what)
{
  printf ("said: %s\n", what);
}
int main (void)
{
  return calc_parse ();
}
