#include "parser.hh"
int more (void);
int more (void)
{
  return NUMBER + OTHER + YYUNDEF;
}
