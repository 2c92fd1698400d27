%require "3.2"
%language "c++"
%define parse.error custom
%define api.location.file none
%define api.symbol.prefix {KIND_}
%locations
%code {
#include <cctype>
#include <cstdio>
#include <iostream>
static int yylex (int *value, yy::location *place);
}
%token NUMBER "a number" NAME END 0 "the end"
%%
all : sum             { std::cout << "sum " << $1 << '\n'; }
    ;
sum : item            { $$ = $1; }
    | sum '+' item    { $$ = $1 + $3; }
    ;
item : NUMBER         { $$ = $1; }
     | NAME           { $$ = 0; }
     | '(' sum ')'    { $$ = $2; }
     ;
%%
void
yy::parser::report_syntax_error (const context &ctx) const
{
  symbol_kind_type expected[3];
  const int few = ctx.expected_tokens (expected, 2);
  const symbol_kind_type first = expected[0];
  const int many = ctx.expected_tokens (0, 0);
  const int count = ctx.expected_tokens (expected, 3);
  std::cout << "custom at " << ctx.location () << ": " << symbol_name (ctx.token ());
  if (ctx.token () == symbol_kind::KIND_NUMBER || ctx.token () == symbol_kind::KIND_YYUNDEF)
    std::cout << " (" << ctx.lookahead ().name () << ')';
  std::cout << ", " << (first == symbol_kind::KIND_YYEMPTY ? "nothing" : symbol_name (first))
            << " and " << few << " of 2, " << count << " of " << many << ':';
  for (int at = 0; at < count; ++at)
    std::cout << ' ' << symbol_name (expected[at]);
  std::cout << '\n';
}
static int
yylex (int *value, yy::location *place)
{
  int sign;
  place->step ();
  do
    {
      sign = std::getchar ();
      place->columns ();
    }
  while (sign == ' ');
  *value = sign - '0';
  if (std::isdigit (sign))
    return yy::parser::token::NUMBER;
  return sign == '\n' ? 0 : sign;
}
void
yy::parser::error (const location_type &, const std::string &what)
{
  std::cout << what << '\n';
}
int main ()
{
  yy::parser it;
  std::cout << it.parse () << '\n';
  return 0;
}
