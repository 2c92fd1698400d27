%define api.pure full
%define api.push-pull push
%define parse.trace
%define parse.error detailed
%parse-param { int *count }
%code {
#include "lexer.h"
static void yyerror (int *count, const char *what);
}
%union {
  int number;
}
%printer { fprintf (yyo, "%d, count %d", $$, *count); } NUMBER
%token END 0 "the end" NUMBER "a number"
%type <number> NUMBER
%type <number> item sum
%%
all : lines
    ;
lines : line
      | lines ';' line
      ;
line : sum            { printf ("sum %d\n", $1); }
     | error          { printf ("wrong\n"); }
     ;
sum : item
    | sum '+' item    { $$ = $1 + $3; ++*count; }
    ;
item : NUMBER
     | '(' sum ')'    { $$ = $2; }
     ;
%%
static void yyerror (int *count, const char *what)
{
  printf ("said: %s, %d\n", what, *count);
}
int main (void)
{
  yypstate *parse = yypstate_new ();
  int count = 0, sign, status;

  yydebug = 1;
  do
    {
      YYSTYPE value;
      int token;

      sign = read_sign ();
      token = sign == '\n' ? 0 : sign;
      value.number = sign - '0';
      if (IS_DIGIT (sign))
        token = NUMBER;
      status = yypush_parse (parse, token, &value, &count);
    }
  while (status == YYPUSH_MORE);
  printf ("ended %d, count %d\n", status, count);
  yypstate_delete (parse);
  return status;
}
