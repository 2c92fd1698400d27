%require "3.2"
%language "c++"
%define api.token.raw
%define api.token.constructor
%define api.value.type variant
%define api.token.prefix {T_}
%define api.symbol.prefix {S_}
%define parse.error detailed
%code requires {
#include <string>
}
%code {
#include <cstdio>
#include <utility>
static yy::parser::symbol_type yylex ();
}
%token <std::string> NAME "name"
%token PLUS "plus" COMMA ","
%token HASH
%token END 0 "end"
%nterm <std::string> sum
%%
all : sum             { std::printf ("all %s\n", $1.c_str ()); }
    | all "," sum     { std::printf ("and %s\n", $3.c_str ()); }
    ;
sum : NAME
    | sum "plus" NAME { $$ = $1 + $3; }
    ;
%%
static yy::parser::symbol_type
yylex ()
{
  typedef yy::parser parser;
  const int sign = std::getchar ();
  if (sign == '+')
    return parser::make_PLUS ();
  if (sign == ',')
    return parser::symbol_type (parser::token::T_COMMA);
  if (sign == '#')
    return parser::make_HASH ();
  if (sign == '\n')
    return parser::make_END ();
  parser::symbol_type made = parser::make_NAME (std::string (2, static_cast<char> (sign)));
  parser::symbol_type other (made);
  parser::symbol_type last;
  last.move (other);
  std::printf ("%s %d %d, %s\n", last.name (), made.kind () == parser::symbol_kind::S_NAME,
               other.kind () == parser::symbol_kind::S_YYEMPTY,
               last.value.as<std::string> ().c_str ());
  return last;
}
void
yy::parser::error (const std::string &what)
{
  std::printf ("%s\n", what.c_str ());
}
int main ()
{
  typedef yy::parser::token token;
  yy::parser it;
  std::printf ("%d\n", it.parse ());
  // The others have our numbers.
  std::printf ("%d %d %d\n", token::T_END, token::T_YYerror,
               static_cast<int> (yy::parser::YYNTOKENS));
  return 0;
}
