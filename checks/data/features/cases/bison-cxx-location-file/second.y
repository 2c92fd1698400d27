%require "3.2"
%language "c++"
%locations
%define api.namespace {second}
%define api.location.type {first::location}
%code requires {
#include "places.hh"
}
%code {
#include <cstdio>
#include <iostream>
static int yylex (int *value, first::location *place);
}
%initial-action { @$ = from; }
%parse-param { const first::location &from }
%token NAME END 0
%%
all : NAME            { std::cout << "second " << @1 << ' ' << from << '\n'; }
    ;
%%
static int
yylex (int *value, first::location *place)
{
  *value = std::getchar ();
  place->step ();
  place->columns (20);
  return *value == 'b' ? static_cast<int> (second::parser::token::NAME) : 0;
}
void
second::parser::error (const location_type &place, const std::string &what)
{
  std::cout << "second " << place << ": " << what << '\n';
}
