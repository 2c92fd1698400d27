#define MINE "by mine.h"
#include "parser.h"
