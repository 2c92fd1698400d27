%code {
#include "plain.h"
static int more (void);
}
%left PLUS MINUS
%printer { (void) yyo; } SIGN
%nonassoc SIGN
%token NUMBER 300 TIMES
%token MINUS PLUS
%%
all : NUMBER          { printf ("%d %d\n", $1, more ()); }
    | all PLUS all | all MINUS all | all TIMES %prec SIGN
    ;
%token BETWEEN;
%%
static int more (void)
{
  printf ("%d %d %d %d %d\n", PLUS, MINUS, SIGN, TIMES, BETWEEN);
  return YYUNDEF;
}
#include "plain_tail.h"
