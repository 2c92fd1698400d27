%define parse.error verbose
%{
#include <string.h>
#include "plain.h"
#define YY_(text) translated (text)
static const char *translated (const char *text);
%}
%token NUMBER
%%
all : sum             { printf ("sum %d\n", $1); }
    ;
sum : NUMBER          { if ($1 == 9) YYNOMEM; $$ = $1; }
    | sum '+' NUMBER  { $$ = $1 + $3; }
    ;
%%
static const char *translated (const char *text)
{
  if (strcmp (text, "syntax error, unexpected %s, expecting %s") == 0)
    return "Satzfehler: %s statt %s";
  return strcmp (text, "memory exhausted") == 0 ? "kein Platz" : text;
}
#include "plain_tail.h"
