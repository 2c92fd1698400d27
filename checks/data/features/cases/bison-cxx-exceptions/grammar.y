%require "3.2"
%language "c++"
%define api.value.type variant
%define api.value.automove
%define api.namespace {outer::inner}
%define api.parser.class {reader}
%code requires {
#include <memory>
#include <string>
typedef std::unique_ptr<std::string> text;
}
%code {
#include <cctype>
#include <cstdio>
#include <stdexcept>
static int yylex (outer::inner::reader::value_type *value);
}
%token <text> NAME
%token END 0
%nterm <text> list
%destructor { std::printf ("destroyed %s\n", $$ ? $$->c_str () : "nothing"); } <text>
%%
all : list             { std::printf ("all %s\n", $1->c_str ()); }
    ;
list : NAME
     | '(' list ')'    { $$ = $2; $$->append (")"); }
     | list NAME       { $$ = $1; $$->append (*$2); }
     | list '(' list   { $$ = $1; $$->append ("(" + *$3); }
     | list '!'        { throw std::runtime_error ("no signs"); }
     ;
%%
static int
yylex (outer::inner::reader::value_type *value)
{
  int sign;
  do
    sign = std::getchar ();
  while (sign == ' ');
  if (sign == '#')
    throw std::runtime_error ("no number");
  if (std::isalpha (sign))
    {
      value->emplace<text> (new std::string (1, static_cast<char> (sign)));
      return outer::inner::reader::token::NAME;
    }
  return sign == '\n' ? 0 : sign;
}
void
outer::inner::reader::error (const std::string &what)
{
  std::printf ("%s\n", what.c_str ());
}
int main ()
{
  outer::inner::reader it;
  try
    {
      std::printf ("%d\n", it ());
    }
  catch (const std::exception &error)
    {
      std::printf ("caught %s\n", error.what ());
    }
  return 0;
}
