#include <stdio.h>
#include "parser.h"
void show (union VALUE *value);
void show (union VALUE *value)
{
  printf ("shown %d\n", value->number);
}
