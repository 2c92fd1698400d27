%require "3.2"
%language "c++"
%define api.value.type variant
%code {
#include <cstdio>
static int yylex (yy::parser::value_type *value);
}
%token A END 0
%%
all : %empty
    | all A
    ;
%%
static int
yylex (yy::parser::value_type *)
{
  int sign;
  do
    sign = std::getchar ();
  while (sign == ' ');
  return sign == 'a' ? yy::parser::token::A : sign == '\n' ? yy::parser::token::END : sign;
}
void
yy::parser::error (const std::string &what)
{
  std::printf ("%s\n", what.c_str ());
}
int main ()
{
  yy::parser parse;
  std::printf ("%d\n", parse.parse ());
  return 0;
}
