#include "lexer.h"
#include "parser.h"
int sum_lex (SUM_STYPE *value, SUM_LTYPE *place)
{
  int sign = read_sign ();

  place->first_column = place->last_column++;
  *value = sign - '0';
  return IS_DIGIT (sign) ? NUMBER : sign == '\n' ? 0 : sign;
}
void sum_error (SUM_LTYPE *place, const char *what)
{
  printf ("said at %d: %s\n", place->first_column, what);
}
int main (void)
{
  SUM_LTYPE place = { 1, 1, 1, 1 };
  SUM_STYPE value = 7;
  sum_pstate *parse = sum_pstate_new ();
  int status = sum_push_parse (parse, NUMBER, &value, &place);

  printf ("more: %d\n", status == YYPUSH_MORE);
  status = sum_push_parse (parse, 0, &value, &place);
  printf ("ended %d\n", status);
  sum_pstate_delete (parse);
  status = sum_parse ();
  printf ("ended %d\n", status);
  return status;
}
