%require "3.2"
%language "c++"
%define api.value.type variant
%define parse.trace
%define parse.error verbose
%locations
%code requires {
#include <string>
}
%code {
#include <cctype>
#include <cstdio>
#include <iostream>
#include <sstream>
static int yylex (yy::parser::value_type *value, yy::parser::location_type *place);
}
%token <int> NUMBER "number"
%token <std::string> NAME "name"
%token <char> SIGN "a sign"
%token DOT "."
%token END 0
%nterm <int> sum item
%nterm <long> line
%printer { yyo << '[' << $$ << ']'; } <*>
%printer { yyo << '"' << $$ << "\" at " << @$.begin.column; } NAME
%printer { yyo << "nothing"; } <>
%printer { yyo << "a line of " << $$; } line
%destructor { std::cout << "gone " << $$ << "\n"; } <*>
%left '+'
%%
all : %empty
    | all line ';'    { std::cout << "line " << $2 << '\n'; }
    | all error ';'   { yyerrok; }
    ;
line : sum            { $$ = $1; }
     | line "." sum   { $$ = 10 * $1 + $3; }
     ;
sum : item
    | sum '+' sum     { $$ = $1 + $3; }
    ;
item : NUMBER
     | NAME           { $$ = static_cast<int> ($1.size ()); }
     | '(' sum ')'    { $$ = $2; }
     ;
%%
static int
yylex (yy::parser::value_type *value, yy::parser::location_type *place)
{
  int sign;
  place->step ();
  do
    {
      sign = std::getchar ();
      place->columns ();
    }
  while (sign == ' ');
  if (std::isdigit (sign))
    {
      value->emplace<int> (sign - '0');
      return yy::parser::token::NUMBER;
    }
  if (std::isalpha (sign))
    {
      value->emplace<std::string> (2, static_cast<char> (sign));
      return yy::parser::token::NAME;
    }
  if (sign == '?')
    {
      value->emplace<char> ('?');
      return yy::parser::token::SIGN;
    }
  if (sign == '.')
    return yy::parser::token::DOT;
  return sign == '\n' ? 0 : sign;
}
void
yy::parser::error (const location_type &place, const std::string &what)
{
  std::cout << place << ": " << what << '\n';
}
int main ()
{
  yy::parser it;
  std::ostringstream trace;
  int ended;
  std::cout << it.debug_level () << ' ' << (&it.debug_stream () == &std::cerr) << '\n';
  it.set_debug_stream (trace);
  it.set_debug_level (1);
  ended = it.parse ();
  std::cout << trace.str () << ended << ' ' << it.debug_level () << '\n';
  return 0;
}
