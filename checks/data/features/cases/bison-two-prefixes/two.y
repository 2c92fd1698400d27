%define api.prefix {two_}
%define api.token.prefix {TWO_}
%define api.value.type {char}
%code {
#include <stdio.h>
int two_lex (void);
void two_error (const char *what);
}
%token LETTER
%%
all : LETTER LETTER   { printf ("two: %c %c\n", $1, $2); }
    ;
