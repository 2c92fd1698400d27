%require "3.2"
%skeleton "lalr1.cc"
%locations
%param { int &count }
%parse-param { const char *name }
%code {
#include <cstdio>
#include <cctype>
static int yylex (yy::parser::semantic_type *value, yy::parser::location_type *place, int &count);
static int freed;
}
%union {
  int number;
  char sign;
}
%token <number> NUMBER "number"
%token <sign> NAME "name"
%token END 0
%nterm <number> sum item
%destructor { freed += $$; } <number>
%destructor { std::printf ("destroyed %c at %d\n", $$, @$.begin.column); } NAME
%initial-action { @$.begin.column = @$.end.column = 10; count = 100; }
%left '+'
%%
all : line
    | all ';' line     { yyerrok; }
    ;
line : sum            { std::printf ("%s %d at %d-%d\n", name, $1, @1.begin.column, @$.end.column); }
     | error          { std::printf ("error at %d-%d\n", @1.begin.column, @1.end.column); }
     ;
sum : item
    | sum '+' item    { $$ = $1 + $3; if ($$ == 8) YYERROR; if ($$ == 100) YYACCEPT; }
    ;
item : NUMBER
     | NAME           { $$ = $1; }
     | '(' sum ')'    { $$ = $2; }
     ;
%%
static int
yylex (yy::parser::semantic_type *value, yy::parser::location_type *place, int &count)
{
  int sign;
  place->step ();
  do
    {
      sign = std::getchar ();
      place->columns ();
    }
  while (sign == ' ');
  ++count;
  if (std::isdigit (sign))
    {
      value->number = sign - '0';
      return yy::parser::token::NUMBER;
    }
  if (std::isalpha (sign))
    {
      value->sign = static_cast<char> (sign);
      return yy::parser::token::NAME;
    }
  return sign == '\n' ? 0 : sign;
}
void
yy::parser::error (const location_type &place, const std::string &what)
{
  std::printf ("%d: %s\n", place.begin.column, what.c_str ());
}
int main ()
{
  int count = 0;
  yy::parser parse (count, "sum");
  int ended = parse ();
  std::printf ("%d, %d tokens, %d freed\n", ended, count, freed);
  return 0;
}
