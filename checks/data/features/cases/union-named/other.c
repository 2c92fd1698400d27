#include <stdio.h>
#include "parser.h"
void show (const union VALUE *value);
void show (const union VALUE *value)
{
  printf ("shown %d\n", value->number);
}
