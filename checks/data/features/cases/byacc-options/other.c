#include "named.tab.h"
int more (void);
int more (void)
{
  return NUMBER;
}
