%define api.pure full
%define api.push-pull push
%define parse.error verbose
%locations
%parse-param { int *count }
%code {
#include "lexer.h"
static void yyerror (YYLTYPE *place, int *count, const char *what);
static void begin (YYLTYPE *place);
}
%union {
  int number;
}
%token <number> NUMBER
%type <number> sum item
%destructor { printf ("dropped %d from %d to %d\n", $$, @$.first_column, @$.last_column); } <number>
%initial-action { begin (&@$); *count += 100; }
%%
all : lines
    ;
lines : line
      | lines ';' line
      ;
line : sum            { printf ("sum %d, %d to %d\n", $1, @1.first_column, @1.last_column); }
     | error          { printf ("wrong from %d to %d\n", @1.first_column, @1.last_column); }
     ;
sum : item
    | sum '+' item    { $$ = $1 + $3; ++*count; }
    ;
item : NUMBER
     | '(' sum ')'    { $$ = $2; }
     ;
%%
static void begin (YYLTYPE *place)
{
  place->first_column = place->last_column = 1;
}
static void yyerror (YYLTYPE *place, int *count, const char *what)
{
  printf ("said at %d: %s, %d\n", place->first_column, what, *count);
}
int main (void)
{
  yypstate *parse = yypstate_new ();
  int count = 0, column = 1, sign, status;

  do
    {
      YYSTYPE value;
      YYLTYPE place;
      int token;

      sign = read_sign ();
      token = sign == '\n' ? 0 : sign;
      value.number = sign - '0';
      if (IS_DIGIT (sign))
        token = NUMBER;
      place.first_line = place.last_line = 1;
      place.first_column = column++;
      place.last_column = column;
      printf ("push %d\n", token == 0);
      status = yypush_parse (parse, token, &value, &place, &count);
    }
  while (status == YYPUSH_MORE);
  printf ("ended %d, count %d, errors %d\n", status, count, parse->yynerrs);
  yypstate_delete (parse);
  return status;
}
