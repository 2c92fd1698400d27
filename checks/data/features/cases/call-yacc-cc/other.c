#include "y.tab.h"
int more (void);
int more (void)
{
  return NUMBER + OTHER + YYUNDEF;
}
