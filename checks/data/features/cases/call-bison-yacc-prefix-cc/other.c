#include "rc.tab.h"
int more (void);
#if ! defined NUMBER || ! defined OTHER || ! defined YYUNDEF || ! defined YYEOF
# error "no macro for a token"
#endif
int more (void)
{
  return NUMBER + OTHER + YYUNDEF;
}
