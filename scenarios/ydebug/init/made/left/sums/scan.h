/* What the scanner, the parser and the program know of each other. */
#ifndef SCAN_H
#define SCAN_H

#include <stddef.h>

/* The most names of a text. */
enum { MOST_NAMES = 100 };

/* Where the last token begins: its line and its column in bytes, from 1. */
extern int token_line, token_column;

/* The text from which yylex takes tokens. It has to stay. */
void scan_text (const char *text, size_t length);

int yylex (void);
int yyparse (void);
void yyerror (const char *message);

#endif
