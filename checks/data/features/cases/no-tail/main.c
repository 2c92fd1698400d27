#define NUMBER 300
#include "lexer.h"
int yylex (void);
void yyerror (const char *what);
int yyparse (void);
extern int yylval, yychar, yynerrs;
int yylex (void)
{
  int sign = read_sign ();

  if (IS_DIGIT (sign))
    {
      yylval = sign - '0';
      return NUMBER;
    }
  return sign == '\n' ? 0 : sign;
}

void yyerror (const char *what)
{
  printf ("said: %s\n", what);
}

int main (void)
{
  int ended = yyparse ();
  printf ("ended %d, errors %d\n", ended, yynerrs);
  return ended;
}
