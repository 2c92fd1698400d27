%define parse.error custom
%{
#include "plain.h"
%}
%token NUMBER
%nonassoc '<' '='
%left '+'
%%
all  : test ';'        { printf ("all %d\n", $1); }
     ;
test : NUMBER
     | test '<' test   { $$ = $1 < $3; }
     | test '=' test   { $$ = $1 == $3; }
     | test '+' test   { $$ = $1 + $3; }
     | '(' test ')'    { $$ = $2; }
     ;
%%
#include "plain_tail.h"

static int yyreport_syntax_error (const yypcontext_t *ctx)
{
  yysymbol_kind_t expected[8];
  int count = yypcontext_expected_tokens (ctx, expected, 8);
  int at;

  printf ("at %s, %d:", yysymbol_name (yypcontext_token (ctx)), count);
  for (at = 0; at < count; at++)
    printf (" %s", yysymbol_name (expected[at]));
  printf ("\n");
  return 0;
}
