#include "parser.inc"
