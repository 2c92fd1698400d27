%skeleton "lalr1.cc"
%require "2.5"
%defines
%define namespace "one::two"
%define parser_class_name "reader"
%define location_type "place"
%define parse.assert
%define variant
%define api.tokens.prefix "T_"
%name-prefix "old"
%error-verbose
%debug
%locations
%lex-param { int &count }
%parse-param { int &count }
%code requires {
#include <string>
struct place { int at; };
#define YYLLOC_DEFAULT(Current, Rhs, N) ((Current) = YYRHSLOC (Rhs, (N) ? 1 : 0))
}
%code {
#include <cstdio>
#include <iostream>
inline std::ostream &operator<< (std::ostream &out, const place &it) { return out << it.at; }
static int oldlex (one::two::reader::semantic_type *value, place *where, int &count);
}
%token <std::string> NAME
%token END 0
%type <std::string> all
%%
all : NAME            { $$ = $1; }
    | all NAME        { $$ = $1 + $2; std::printf ("%s at %d\n", $$.c_str (), @2.at); }
    ;
%%
static int
oldlex (one::two::reader::semantic_type *value, place *where, int &count)
{
  const int sign = std::getchar ();
  where->at = ++count;
  if (sign == '\n' || sign == '?')
    return sign == '?' ? sign : 0;
  value->build<std::string> () = std::string (1, static_cast<char> (sign));
  return one::two::reader::token::T_NAME;
}
void
one::two::reader::error (const place &where, const std::string &what)
{
  std::printf ("%d: %s\n", where.at, what.c_str ());
}
int main ()
{
  int count = 0;
  one::two::reader it (count);
  it.set_debug_level (0);
  std::printf ("%d\n", it.parse ());
  return 0;
}
