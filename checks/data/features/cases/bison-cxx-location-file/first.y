%require "3.2"
%language "c++"
%locations
%define api.namespace {first}
%define api.location.file "places.hh"
%define api.location.include {"places.hh"}
%define api.filename.type {const char}
%define define_location_comparison
%code {
#include <cstdio>
#include <iostream>
#include <sstream>
#include "second.hh"
static int yylex (int *value, first::location *place);
}
%initial-action { @$.initialize (name); }
%parse-param { const char *name } { int &again }
%token NAME END 0
%%
all : %empty
    | all NAME        { std::cout << @1 << ", " << @2 << ": " << $2 << '\n'; }
    | all '2'         { second::parser it (@2); again += it.parse (); @$ = @2; }
    ;
%%
static int
yylex (int *value, first::location *place)
{
  int sign = std::getchar ();
  place->step ();
  place->columns ();
  if (sign == 'b')
    place->lines (2);
  *value = sign;
  return sign == '\n' || sign < 0 ? 0 : sign == '2' || sign == '?' ? sign : first::parser::token::NAME;
}
void
first::parser::error (const location_type &place, const std::string &what)
{
  std::cout << place << ": " << what << ", " << name << '\n';
}
static void
show (const first::location &place)
{
  std::cout << place << '\n';
}
int main ()
{
  int again = 0;
  first::parser it ("file", again);
  std::cout << it.parse () << ' ' << again << '\n';
  const char *other = "other";
  first::position here (other, 3, 7);
  first::location all (here), none, two (first::position (other, 1, 2), here);
  show (all);
  show (none);
  show (two);
  show (all + 5);
  show (two - 2);
  all += 3;
  show (all);
  all -= 100;
  show (all);
  all.end.lines (2);
  show (all);
  all.step ();
  show (all);
  none.initialize (other, 9);
  show (none);
  show (first::location (other, 4, 5));
  here += 2;
  std::cout << here << ' ' << here - 20 << ' ' << here + 1 << ' ' << two.end << ' '
            << (all == two) << (all != two) << (two.end == all.begin) << (two == two) << '\n';
  return 0;
}
