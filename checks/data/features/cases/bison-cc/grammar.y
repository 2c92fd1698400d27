%define api.pure full
%parse-param { calculation &all }
%lex-param { calculation &all }
%define parse.error verbose
%code requires {
#include <string>
#include <vector>
struct calculation
{
  std::vector<int> sums;
  std::string last;
};
}
%union {
  int number;
  std::string *word;
}
%token <number> NUMBER "number"
%token <word> WORD "word"
%type <number> sum
%type <word> words
%destructor { delete $$; } <word>
%code {
int yylex (YYSTYPE *value, calculation &all);
static void yyerror (calculation &all, const char *what) { all.last += what; }
}
%%
all : line
    | all ';' line
    ;
line : sum            { all.sums.push_back ($1); }
     | words          { all.last += *$1; delete $1; }
     ;
sum : NUMBER
    | sum '+' NUMBER  { $$ = $1 + $3; }
    ;
words : WORD
      | words '+' WORD  { *$1 += *$3; delete $3; $$ = $1; }
      ;
%%
#include <iostream>
int main ()
{
  calculation all;
  int ended = yyparse (all);
  for (int it : all.sums)
    std::cout << it << '\n';
  std::cout << all.last << '\n';
  return ended;
}
