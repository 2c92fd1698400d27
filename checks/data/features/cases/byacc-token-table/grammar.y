%{
#include "plain.h"
static const char *name_of (int token);
%}
%token-table
%token NUMBER WORD
%%
all : NUMBER          { printf ("%s %s %s\n", name_of (NUMBER), name_of (WORD), name_of ('+')); }
    | WORD '+' WORD
    ;
%%
static const char *name_of (int token)
{
  return yytname[token] ? yytname[token] : "none";
}
#include "plain_tail.h"
