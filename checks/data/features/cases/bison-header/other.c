#include "parser.h"
int more (void);
int more (void)
{
  return NUMBER + YYEOF + YYerror + (YYUNDEF > 0);
}
