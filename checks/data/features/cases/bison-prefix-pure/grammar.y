%define api.prefix {zz}
%define api.pure full
%locations
%code {
#include "lexer.h"
static int zzlex (ZZSTYPE *value, ZZLTYPE *place);
static void zzerror (ZZLTYPE *place, const char *what);
}
%token NUMBER
%%
/* The number of errors has the name of the prefix in parsers without shared variables, too. */
all : NUMBER          { printf ("number %d, errors %d\n", $1, zznerrs); }
    | NUMBER error ';' { printf ("errors %d\n", zznerrs); }
    ;
%%
static int zzlex (ZZSTYPE *value, ZZLTYPE *place)
{
  int sign = read_sign ();

  (void) place;
  if (IS_DIGIT (sign))
    {
      *value = sign - '0';
      return NUMBER;
    }
  return sign == '\n' ? 0 : sign;
}
static void zzerror (ZZLTYPE *place, const char *what)
{
  (void) place;
  printf ("said: %s\n", what);
}
int main (void)
{
  int ended = zzparse ();
  printf ("ended %d\n", ended);
  return ended;
}
