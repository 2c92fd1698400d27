%define api.pure full
%locations
%parse-param { int *count } { const char *name }
%lex-param { int *count }
%code requires {
struct place { int line; };
}
%code provides {
int yylex (YYSTYPE *value, YYLTYPE *place, int *count);
void yyerror (YYLTYPE *place, int *count, const char *name, const char *what);
}
%code {
#include <stdio.h>
}
%union {
  int number;
}
%token <number> NUMBER
%type <number> sum
%%
all : sum
      { printf ("%s: sum %d, %d to %d\n", name, $1, @1.first_column, @1.last_column); }
    | error '+'       { printf ("wrong from %d to %d\n", @1.first_column, @1.last_column); }
    ;
sum : NUMBER
    | sum '+' NUMBER  { $$ = $1 + $3; ++*count; }
    ;
%%
void yyerror (YYLTYPE *place, int *count, const char *name, const char *what)
{
  printf ("%s said at %d: %s, %d\n", name, place->first_column, what, *count);
}
int main (void)
{
  int count = 0, ended = yyparse (&count, "a name");
  printf ("ended %d, count %d\n", ended, count);
  return ended;
}
