%{
#include <stdio.h>
extern int yylex (void);
extern void yyerror (const char *what);
%}
%union { int letter; }
%token <letter> LETTER
%type <letter> words
%%
all : words           { printf ("words %d\n", $1); }
    ;
words : LETTER        { $$ = 1; }
      | words LETTER  { $$ = $1 + 1; printf ("%c\n", $2); }
      ;
