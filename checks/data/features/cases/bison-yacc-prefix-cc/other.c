#include "rc.tab.h"
int more (void);
#ifndef NUMBER
# error "no macro for a token"
#endif
int more (void)
{
  return NUMBER;
}
