%require "3.2"
%language "c++"
%define api.value.type variant
%define parse.assert
%code requires {
#include <string>
}
%code {
#include <csignal>
#include <cstdio>
#include <cstdlib>
static int yylex (yy::parser::value_type *value);
}
%token <std::string> NAME
%token <int> NUMBER
%token END 0
%%
all : %empty
    | all NAME        { std::printf ("name %s\n", $2.c_str ()); }
    | all NUMBER      { std::printf ("number %d\n", $2); }
    ;
%%
static int
yylex (yy::parser::value_type *value)
{
  const int sign = std::getchar ();
  switch (sign)
    {
    case '\n':
      return 0;
    case '1':
      value->emplace<int> (1);
      return yy::parser::token::NUMBER;
    case '2':
      // A value of another type than its token's.
      value->emplace<int> (2);
      return yy::parser::token::NAME;
    case '3':
      // A second value in place of one.
      value->emplace<int> (3);
      value->emplace<int> (4);
      return yy::parser::token::NUMBER;
    default:
      value->emplace<std::string> (2, static_cast<char> (sign));
      return yy::parser::token::NAME;
    }
}
void
yy::parser::error (const std::string &what)
{
  std::printf ("%s\n", what.c_str ());
}
static void
abort_told (int)
{
  std::puts ("an assertion fails");
  std::fflush (stdout);
  std::_Exit (7);
}
int main ()
{
  yy::parser it;
  // What it says has names of files and lines of the parser.
  if (!std::freopen ("/dev/null", "w", stderr))
    return 1;
  std::signal (SIGABRT, abort_told);
  std::printf ("%d\n", it.parse ());
  return 0;
}
