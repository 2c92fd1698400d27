#include "parser.h"
int described (YYSTYPE *value)
{
  return value->value.number + NUMBER;
}
