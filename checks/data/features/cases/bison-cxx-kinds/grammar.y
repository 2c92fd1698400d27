%require "3.2"
%language "c++"
%define parse.error detailed
%code {
#include <cctype>
#include <cstdio>
static int yylex (int *value);
}
%token YYUNDEF NUMBER
%%
all : NUMBER '+' { std::printf ("after %d\n", $1); } NUMBER { std::printf ("%d\n", $1 + $4); }
    ;
%%
static int
yylex (int *value)
{
  int sign;
  do
    sign = std::getchar ();
  while (sign == ' ');
  *value = sign - '0';
  if (std::isdigit (sign))
    return yy::parser::token::NUMBER;
  return sign == '\n' ? 0 : sign == '?' ? yy::parser::token::YYUNDEF : sign;
}
void
yy::parser::error (const std::string &what)
{
  std::printf ("%s\n", what.c_str ());
}
int main ()
{
  yy::parser it;
  std::printf ("%d\n", it.parse ());
  std::printf ("%d %d\n", yy::parser::symbol_kind::S_4_ == 4,
               yy::parser::symbol_kind::S_YYACCEPT == yy::parser::symbol_kind::S_all);
  return 0;
}
