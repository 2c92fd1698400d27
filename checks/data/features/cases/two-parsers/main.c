#include "lexer.h"
extern int one_lval;
int one_parse (void);
int one_lex (void);
void one_error (const char *what);
int one_lex (void)
{
  int sign = read_sign ();

  if (IS_DIGIT (sign))
    {
      one_lval = sign - '0';
      return 300;
    }
  return sign == '|' ? 0 : sign;
}
void one_error (const char *what)
{
  printf ("one: %s\n", what);
}
#include "two.h"
int two_parse (void);
int two_lex (void);
void two_error (const char *what);
int two_lex (void)
{
  int sign = read_sign ();

  if (IS_LETTER (sign))
    {
      two_lval.letter = sign;
      return LETTER;
    }
  return sign == '\n' ? 0 : sign;
}
void two_error (const char *what)
{
  printf ("two: %s\n", what);
}
int main (void)
{
  int one = one_parse (), two = two_parse ();
  printf ("ended %d and %d\n", one, two);
  return one * 10 + two;
}
