%{
#include "lexer.h"
struct context { int count; void *counter; };
#define X context->counter
%}
%parse-param { struct context *context }
%lex-param { void *X }
%{
static int yylex (void *counter);
static void yyerror (struct context *context, const char *what);
%}
%token NUMBER
%%
all : sum             { printf ("sum %d of %d, %d\n", $1, context->count, NUMBER); }
    ;
sum : NUMBER
    | sum '+' NUMBER  { $$ = $1 + $3; }
    ;
%%
static int yylex (void *counter)
{
  int sign = read_sign ();

  ++*(int *) counter;
  if (IS_DIGIT (sign))
    {
      yylval = sign - '0';
      return NUMBER;
    }
  return sign == '\n' ? 0 : sign;
}
static void yyerror (struct context *context, const char *what)
{
  printf ("said after %d: %s\n", context->count, what);
}
int main (void)
{
  struct context context = { 0, 0 };
  int ended;
  context.counter = &context.count;
  ended = yyparse (&context);
  printf ("ended %d\n", ended);
  return ended;
}
