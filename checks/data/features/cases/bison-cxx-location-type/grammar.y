%require "3.2"
%language "c++"
%locations
%define api.location.type {span}
%define parse.error verbose
%define api.value.type {char}
%code requires {
// Some type of places, which has no comparison and prints nothing.
struct span
{
  int from, to;
  span (int one = 0, int other = 0) : from (one), to (other) {}
};
#define YYLLOC_DEFAULT(Current, Rhs, N)                              \
  ((Current) = (N) ? span (YYRHSLOC (Rhs, 1).from, YYRHSLOC (Rhs, N).to) \
                   : span (YYRHSLOC (Rhs, 0).to, -1))
}
%code {
#include <cstdio>
static int yylex (char *value, span *place);
}
%token NAME END 0
%%
all : list            { std::printf ("all %d-%d\n", @1.from, @1.to); }
    ;
list : %empty         { std::printf ("none %d-%d\n", @$.from, @$.to); }
     | list item      { std::printf ("%c %d-%d %d-%d\n", $2, @2.from, @2.to, @$.from, @$.to); }
     | list error     { std::printf ("error %d-%d\n", @2.from, @2.to); }
     ;
item : NAME
     | '(' list ')'   { $$ = '('; }
     ;
%%
static int
yylex (char *value, span *place)
{
  int sign = std::getchar ();
  *place = span (place->to, place->to + 1);
  *value = static_cast<char> (sign);
  return sign == '\n' ? 0 : sign == '(' || sign == ')' ? sign : yy::parser::token::NAME;
}
void
yy::parser::error (const location_type &place, const std::string &what)
{
  std::printf ("%d: %s\n", place.from, what.c_str ());
}
int main ()
{
  yy::parser it;
  std::printf ("%d\n", it.parse ());
  return 0;
}
