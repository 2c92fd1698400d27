#include "lexer.h"
#include "value.h"
#include "parser.h"
#include "parser.h"
int yylex (void);
void yyerror (const char *what);
int numbers (void);
int numbers (void)
{
#if defined NUMBER && defined YYNOTHING
  return -1;
#else
  return NUMBER * 1000 + PLUS;
#endif
}
int yylex (void)
{
  int sign = read_sign ();

  if (IS_DIGIT (sign))
    {
      yylval.number = sign - '0';
      return NUMBER;
    }
  if (IS_LETTER (sign))
    {
      yylval.value.first = sign - 'a';
      yylval.value.second = 10;
      return VALUE;
    }
  return sign == '\n' ? 0 : sign == '+' ? PLUS : sign;
}
void yyerror (const char *what)
{
  printf ("said: %s\n", what);
}
