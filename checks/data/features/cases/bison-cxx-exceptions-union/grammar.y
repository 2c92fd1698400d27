%require "3.2"
%skeleton "lalr1.cc"
%locations
%define parse.lac full
%parse-param { int &open }
%code {
#include <cctype>
#include <cstdio>
#include <exception>
#include <string>
static int yylex (yy::parser::value_type *value, yy::parser::location_type *place);
}
%union {
  std::string *text;
  int number;
}
%token <text> NAME
%token <number> SIGN
%token END 0
%nterm <text> list
%destructor { std::printf ("destroyed %s at %d\n", $$->c_str (), @$.begin.column); delete $$; } <text>
%destructor { std::printf ("%d open\n", open); } <> <*>
%%
all : list            { std::printf ("all %s\n", $1->c_str ()); delete $1; }
    ;
list : %empty         { $$ = new std::string; }
     | list NAME      { $$ = $1; $$->append (*$2); delete $2; }
     | list '(' { ++open; } list ')'
                      { $$ = $1; $$->append ("(" + *$4 + ")"); delete $4; --open; }
     | list SIGN      { $$ = $1; if ($2 == '!') throw std::string ("a sign");
                        if ($2 == '%')
                          {
                            /* what a rule has that ends so is thrown away by nobody else */
                            delete $1;
                            throw syntax_error (@2, "no percents");
                          } }
     ;
%%
static int
yylex (yy::parser::value_type *value, yy::parser::location_type *place)
{
  const int sign = std::getchar ();
  place->step ();
  place->columns ();
  if (sign == '#')
    throw 12;
  if (sign == '^')
    throw yy::parser::syntax_error (*place, "no carets");
  if (std::isalpha (sign))
    {
      value->text = new std::string (1, static_cast<char> (sign));
      return yy::parser::token::NAME;
    }
  value->number = sign;
  if (sign == '!' || sign == '%')
    return yy::parser::token::SIGN;
  return sign == '\n' ? 0 : sign;
}
void
yy::parser::error (const location_type &place, const std::string &what)
{
  std::printf ("%d: %s\n", place.begin.column, what.c_str ());
  if (open > 2)
    throw std::string ("too deep");
}
int main ()
{
  int open = 0;
  yy::parser it (open);
  try
    {
      std::printf ("%d\n", it ());
    }
  catch (const std::string &text)
    {
      std::printf ("caught %s\n", text.c_str ());
    }
  catch (int number)
    {
      std::printf ("caught %d\n", number);
    }
  std::printf ("%d open\n", open);
  return 0;
}
