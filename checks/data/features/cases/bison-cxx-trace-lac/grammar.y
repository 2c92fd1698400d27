%require "3.2"
%language "c++"
%define parse.trace
%define parse.error verbose
%define parse.lac full
%code {
#include "lexer.h"
#include <iostream>
static int yylex (int *value);
}
%printer { yyo << $$; } NUMBER sum
%token NUMBER "number" END 0 "the end"
%nonassoc '<'
%left '+'
%%
all : %empty
    | all sum ';'     { std::cout << "sum " << $2 << '\n'; }
    | all error ';'   { yyerrok; }
    | all '.' { $$ = 1; } sum
    ;
sum : NUMBER
    | 'a'             { $$ = 7; }
    | sum '+' sum     { $$ = $1 + $3; }
    | sum '<' sum     { $$ = $1 < $3; }
    | '(' sum ')'     { $$ = $2; }
    ;
%%
static int
yylex (int *value)
{
  int sign = read_sign ();
  *value = sign - '0';
  if (IS_DIGIT (sign))
    return yy::parser::token::NUMBER;
  return sign == '\n' ? 0 : sign;
}
void
yy::parser::error (const std::string &what)
{
  std::cout << what << '\n';
}
int main ()
{
  yy::parser it;
  int ended;
  it.set_debug_level (1);
  it.set_debug_stream (std::cout);
  for (int round = 0; round < 2; ++round)
    {
      ended = it.parse ();
      std::cout << "ended " << ended << '\n';
    }
  return ended;
}
