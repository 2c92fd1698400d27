#include "tokens.h"
int more (void);
int more (void)
{
  return NUMBER;
}
