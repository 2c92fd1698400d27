%pure-parser
%{
#include "lexer.h"
static void zzerror (const char *what);
#define zzlex read_token
static int read_token (int *value);
%}
%token NUMBER
%%
all : NUMBER          { printf ("number %d, errors %d\n", $1, zznerrs); }
    | NUMBER error ';' { printf ("errors %d\n", zznerrs); }
    ;
%%
static int read_token (int *value)
{
  int sign = read_sign ();

  if (IS_DIGIT (sign))
    {
      *value = sign - '0';
      return NUMBER;
    }
  return sign == '\n' ? 0 : sign;
}
static void zzerror (const char *what)
{
  printf ("said: %s\n", what);
}
int main (void)
{
  int ended = zzparse ();
  printf ("ended %d\n", ended);
  return ended;
}
