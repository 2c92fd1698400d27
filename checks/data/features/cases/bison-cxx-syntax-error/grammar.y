%require "3.2"
%language "c++"
%define api.value.type variant
%define api.token.constructor
%code {
#include <cstdio>
static yy::parser::symbol_type yylex ();
static int even (int number);
}
%token <int> DIGIT
%token STOP ";" END 0
%nterm <int> number
%%
all : %empty
    | all line
    ;
line : number ";"     { std::printf ("%d\n", even ($1)); }
     | error ";"      { std::printf ("skipped\n"); yyerrok; }
     ;
number : DIGIT
       | number DIGIT { if ($2 == 7) throw yy::parser::syntax_error ("a seven"); $$ = 10 * $1 + $2; }
       ;
%%
// An action's call throws, too.
static int
even (int number)
{
  if (number % 2)
    throw yy::parser::syntax_error ("an odd number");
  return number;
}
static yy::parser::symbol_type
yylex ()
{
  const int sign = std::getchar ();
  if (sign == '?')
    throw yy::parser::syntax_error ("a question");
  if (sign == '\n')
    return yy::parser::make_END ();
  return sign == ';' ? yy::parser::make_STOP () : yy::parser::make_DIGIT (sign - '0');
}
void
yy::parser::error (const std::string &what)
{
  std::printf ("%s\n", what.c_str ());
}
int main ()
{
  yy::parser it;
  std::printf ("%d\n", it.parse ());
  return 0;
}
