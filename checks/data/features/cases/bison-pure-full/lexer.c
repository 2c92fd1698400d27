#include "lexer.h"
#include "parser.h"
int yylex (YYSTYPE *value, YYLTYPE *place, int *count)
{
  int sign = read_sign ();

  place->first_column = place->last_column;
  place->last_column++;
  *count += 100;
  if (IS_DIGIT (sign))
    {
      value->number = sign - '0';
      return NUMBER;
    }
  return sign == '\n' ? 0 : sign;
}
