%require "3.2"
%language "c++"
%define api.value.type variant
%define api.token.constructor
%define api.token.prefix {TOK_}
%define parse.assert
%define parse.error verbose
%locations
%code requires {
#include <memory>
#include <string>
#include <vector>
// Counts its objects.
struct word
{
  std::string text;
  static int alive;
  word () { ++alive; }
  word (const std::string &it) : text (it) { ++alive; }
  word (const word &it) : text (it.text) { ++alive; }
  word (word &&it) : text (std::move (it.text)) { ++alive; }
  word &operator= (const word &it) = default;
  word &operator= (word &&it) = default;
  ~word () { --alive; }
};
}
%code provides {
inline int twice (int number) { return 2 * number; }
}
%code {
#include <cctype>
#include <cstdio>
int word::alive = 0;
namespace yy
{
  static parser::symbol_type yylex ();
}
}
%token <word> WORD "word"
%token <int> NUMBER "number"
%token STOP ";" UNKNOWN "?"
%token END 0 "end of text"
%nterm <std::vector<word>> words
%nterm <word> item
%nterm <std::pair<int, std::string>> many
%%
all : %empty
    | all words ";"   { for (const word &it : $2) std::printf ("[%s]", it.text.c_str ());
                        std::printf (" %d\n", static_cast<int> ($2.size ())); }
    | all error ";"   { std::printf ("skipped %d-%d\n", @2.begin.column, @2.end.column); }
    ;
words : item          { $$.push_back ($1); }
      | words item    { $$ = std::move ($1); $$.push_back ($2); }
      ;
item : WORD
     | many           { $$ = word (std::to_string ($1.first) + $1.second); }
     ;
many : NUMBER         { $$ = std::make_pair (twice ($1), "!");
                        if ($1 == 7) throw syntax_error (@1, "seven"); }
     ;
%%
namespace yy
{
  static parser::symbol_type yylex ()
  {
    static location place;
    int sign;
    place.step ();
    do
      {
        sign = std::getchar ();
        place.columns ();
        if (sign == ' ')
          place.step ();
      }
    while (sign == ' ');
    if (sign == 'x')
      throw parser::syntax_error (place, "an x");
    if (std::isdigit (sign))
      return parser::make_NUMBER (sign - '0', place);
    if (std::isalpha (sign))
      return parser::make_WORD (std::string (1, static_cast<char> (sign)), place);
    if (sign == ';')
      return parser::make_STOP (place);
    return sign == '?' ? parser::symbol_type (parser::token::TOK_UNKNOWN, place)
                       : parser::make_END (place);
  }
  void parser::error (const location_type &place, const std::string &what)
  {
    std::printf ("%d: %s\n", place.begin.column, what.c_str ());
  }
}
int main ()
{
  {
    yy::parser parse;
    std::printf ("%d\n", parse.parse ());
  }
  std::printf ("alive %d\n", word::alive);
  return 0;
}
