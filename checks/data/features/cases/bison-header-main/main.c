#include "lexer.h"
#include "parser.h"
struct state { int unused; };
void yyerror (YYLTYPE *place, int *into, struct state *state, const char *what);
int yylex_of (YYSTYPE *value, YYLTYPE *place)
{
  int sign = read_sign ();

  place->last_line++;
  value->number = sign - '0';
  return sign == '\n' ? 0 : sign == '+' ? sign : (int) NUMBER;
}
void yyerror (YYLTYPE *place, int *into, struct state *state, const char *what)
{
  printf ("line %d: %s, %d\n", place->last_line, what, *into + state->unused);
}
int main (void)
{
  struct state state;
  int into = 5, ended;

  state.unused = 100;
#if YYDEBUG
  yydebug = 0;
#endif
  ended = yyparse (&into, &state);
  printf ("ended %d with %d\n", ended, into);
  return ended;
}
