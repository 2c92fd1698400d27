#include "lexer.h"
#include "parser.hh"
int yylex (YYSTYPE *value, calculation &all);
int yylex (YYSTYPE *value, calculation &all)
{
  int sign = read_sign ();

  all.last += '.';
  if (IS_DIGIT (sign))
    {
      value->number = sign - '0';
      return NUMBER;
    }
  if (IS_LETTER (sign))
    {
      value->word = new std::string (3, static_cast<char> (sign));
      return WORD;
    }
  return sign == '\n' ? 0 : sign;
}
