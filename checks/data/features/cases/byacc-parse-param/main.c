#include <stdio.h>
struct sum { int all; };
#include "parser.h"
int yyparse (struct sum *into, const char *name, int factor);
int main (void)
{
  struct sum it;
  int ended = yyparse (&it, "a name", 10);
  printf ("ended %d with %d\n", ended, it.all);
  return ended;
}
