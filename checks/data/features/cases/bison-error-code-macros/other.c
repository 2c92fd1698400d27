#include <stdio.h>
#include "parser.h"

/* Which tokens of its own bison names by macros. */
void tell_macros (void)
{
#ifdef YYEMPTY
  printf ("YYEMPTY %d\n", YYEMPTY);
#endif
#ifdef YYEOF
  printf ("YYEOF %d\n", YYEOF);
#endif
#ifdef YYerror
  printf ("YYerror %d\n", YYerror);
#endif
#ifdef YYUNDEF
  printf ("YYUNDEF is a macro\n");
#endif
#ifdef YYERRCODE
  printf ("YYERRCODE is in the header\n");
#endif
}
