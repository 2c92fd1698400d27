#include "named.h"
int more (void);
#ifdef NUMBER
# error "a macro for a token"
#endif
int more (void)
{
  return NUMBER + OTHER + YYUNDEF;
}
