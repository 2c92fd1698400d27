%require "3.2"
%language "c++"
%define parse.error verbose
%define parse.lac full
%code {
#include <cctype>
#include <cstdio>
static int yylex (int *value);
}
%token NUMBER "a \"number\"" NAME '?' "question, mark" END 0 "the end"
%left '+'
%%
all : sum            { std::printf ("sum %d\n", $1); }
    ;
sum : item           { $$ = $1; }
    | sum '+' sum    { $$ = $1 + $3; }
    ;
item : NUMBER        { $$ = $1; }
     | NAME          { $$ = 0; }
     | '(' sum ')'   { $$ = $2; }
     | '(' sum error { $$ = 0; std::printf ("no end\n"); }
     ;
%%
static int
yylex (int *value)
{
  int sign;
  do
    sign = std::getchar ();
  while (sign == ' ');
  *value = sign - '0';
  if (std::isdigit (sign))
    return yy::parser::token::NUMBER;
  return sign == '\n' ? 0 : sign;
}
void
yy::parser::error (const std::string &what)
{
  std::printf ("%s\n", what.c_str ());
}
int main ()
{
  yy::parser it;
  std::printf ("%d\n", it.parse ());
  return 0;
}
