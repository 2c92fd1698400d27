#include "named.tab.hh"
int more (void);
int more (void)
{
  return NUMBER + YYEOF + YYerror + (YYUNDEF > 0);
}
