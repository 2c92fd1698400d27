#include "lexer.h"
#include "one.h"
#include "two.h"
int one_lex (ONE_STYPE *value, ONE_LTYPE *place);
void one_error (ONE_LTYPE *place, const char *what);
int two_lex (void);
void two_error (const char *what);
int one_lex (ONE_STYPE *value, ONE_LTYPE *place)
{
  int sign = read_sign ();

  place->last_column++;
  value->number = sign - '0';
  return sign == '|' ? 0 : IS_DIGIT (sign) ? (int) ONE_NUMBER : sign;
}
void one_error (ONE_LTYPE *place, const char *what)
{
  printf ("one: %s at %d\n", what, place->last_column);
}
int two_lex (void)
{
  int sign = read_sign ();

  two_lval = (TWO_STYPE) sign;
  return sign == '\n' ? 0 : IS_LETTER (sign) ? (int) TWO_LETTER : sign;
}
void two_error (const char *what)
{
  printf ("two: %s\n", what);
}
int main (void)
{
  int one = one_parse (), two = two_parse ();
  printf ("ended %d and %d\n", one, two);
  return one * 10 + two;
}
