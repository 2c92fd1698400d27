%{
#include <stdio.h>
static int yylex (void);
static void yyerror (const char *what);
%}
%token A 32768 B 40000 C 65534 D 65535 E 70000 F 100000
%%
all : A ';' { printf ("A %d\n", A); }
    | B ';' { printf ("B %d\n", B); }
    | C ';' { printf ("C %d\n", C); }
    | D ';' { printf ("D %d\n", D); }
    | E ';' { printf ("E %d\n", E); }
    | F ';' { printf ("F %d\n", F); }
    ;
%%
/* A letter is a token by its name; other input is a token by its number. */
static int yylex (void)
{
  static const int named[] = { A, B, C, D, E, F };
  int sign = getchar (), number = 0;

  while (sign == ' ')
    sign = getchar ();
  if ('a' <= sign && sign <= 'f')
    return named[sign - 'a'];
  for (; '0' <= sign && sign <= '9'; sign = getchar ())
    number = 10 * number + sign - '0';
  if (number > 0)
    return number;
  return sign == '\n' || sign == EOF ? 0 : sign;
}
static void yyerror (const char *what)
{
  printf ("said: %s\n", what);
}
int main (void)
{
  int ended = yyparse ();
  printf ("ended %d, %d\n", ended, B);
  return ended;
}
