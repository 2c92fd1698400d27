#include "lexer.h"
#include "parser.h"
int yylex (void);
void yyerror (const char *what);
int yylex (void)
{
  int sign = read_sign ();

  if (IS_DIGIT (sign))
    {
      yylval.TOK_NUMBER = sign - '0';
      return TOK_NUMBER;
    }
  return sign == '\n' ? TOK_END_OF_LINE : sign == 'e' ? TOK_EXTRA : TOK_PLUS;
}
void yyerror (const char *what)
{
  printf ("said: %s\n", what);
}
