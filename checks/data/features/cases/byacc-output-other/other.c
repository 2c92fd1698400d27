#include "y.tab.h"
int more (void);
int more (void)
{
  return 10 * NUMBER + OTHER;
}
