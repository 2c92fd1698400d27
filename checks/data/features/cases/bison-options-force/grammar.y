%define parse.error verbose
%define api.prefix {y}
%{
#include "lexer.h"
static int zlex (void);
static void zerror (const char *what);
%}
%token NUMBER
%%
all : NUMBER        { printf ("%d\n", $1); }
    | all '+' NUMBER { printf ("and %d\n", $3); }
    ;
%%
static int zlex (void)
{
  int sign = read_sign ();

  if (IS_DIGIT (sign))
    {
      zlval = sign - '0';
      return NUMBER;
    }
  return sign == '\n' ? 0 : sign;
}
static void zerror (const char *what)
{
  printf ("said: %s\n", what);
}
int main (void)
{
  printf ("trace %d\n", ZDEBUG);
  return zparse ();
}

