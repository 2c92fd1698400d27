/* What the lexers of the cases share. */
#include <stdio.h>

#define IS_DIGIT(sign) ('0' <= (sign) && (sign) <= '9')
#define IS_LETTER(sign) ('a' <= (sign) && (sign) <= 'z')

/* The next sign of standard input that is no space; 0 at the end. */
static int read_sign (void)
{
  int sign = getchar ();

  while (sign == ' ')
    sign = getchar ();
  return sign == EOF ? 0 : sign;
}
