#include "lexer.h"
#include "parser.h"
extern int calc_lval;
int calc_lex (void);
void calc_error (YYLTYPE *place, const char *what);
int calc_lex (void)
{
  int sign = read_sign ();

  calc_lloc.first_line++;
  calc_lval = sign - '0';
  return sign == '\n' ? 0 : IS_DIGIT (sign) ? NUMBER : sign;
}
void calc_error (YYLTYPE *place, const char *what)
{
  printf ("at %d: %s\n", place->first_line, what);
}
