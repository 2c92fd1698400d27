#include "lexer.h"
#include "parser.h"
int calc_lex (void);
void calc_error (const char *what);
static CALC_STYPE last;
int calc_lex (void)
{
  int sign = read_sign ();
  enum calc_tokentype kind = NUMBER;
  CALC_LTYPE *place = &calc_lloc;

  place->first_column++;
  if (IS_DIGIT (sign))
    {
      last.number = sign - '0';
      calc_lval = last;
      return kind;
    }
  return sign == '\n' ? CALC_EOF : sign;
}
void calc_error (const char *what)
{
  printf ("calc_error: %s\n", what);
}
