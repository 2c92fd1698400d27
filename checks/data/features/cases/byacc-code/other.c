#include "parser.h"
int described (struct value *value)
{
  return value->number + NUMBER;
}
