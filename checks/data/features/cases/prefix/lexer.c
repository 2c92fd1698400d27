#include "lexer.h"
#include "parser.h"
int calc_lex (void);
void calc_error (const char *what);
int calc_lex (void)
{
  int sign = read_sign ();

  if (IS_DIGIT (sign))
    {
      calc_lval.number = sign - '0';
      return NUMBER;
    }
  if (IS_LETTER (sign))
    {
      calc_lval.letter = (char) sign;
      return LETTER;
    }
  return sign == '\n' ? 0 : sign;
}
void calc_error (const char *what)
{
  printf ("calc_error: %s\n", what);
}
