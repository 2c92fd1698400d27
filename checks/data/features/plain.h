/* What stands before the grammar where neither lexer nor messages are what a case is about. */
#include "lexer.h"

static int yylex (void);
static void yyerror (const char *what);
