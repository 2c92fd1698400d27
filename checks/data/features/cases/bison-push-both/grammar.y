%define api.pure full
%define api.push-pull both
%define parse.error detailed
%locations
%param { int *count } { const char *name }
%code provides {
int yylex (YYSTYPE *value, YYLTYPE *place, int *count, const char *name);
void yyerror (YYLTYPE *place, int *count, const char *name, const char *what);
}
%code {
#include "lexer.h"
}
%define api.value.type union
%token <int> NUMBER "number"
%type <int> sum item
%%
all : sum             { printf ("%s: sum %d to %d\n", name, $1, @1.last_column); }
    ;
sum : item
    | sum '+' item    { $$ = $1 + $3; }
    ;
item : NUMBER
     | '(' sum ')'    { $$ = $sum; }
     ;
%%
int yylex (YYSTYPE *value, YYLTYPE *place, int *count, const char *name)
{
  int sign = read_sign ();

  place->first_column = place->last_column++;
  ++*count;
  if (!IS_DIGIT (sign))
    return sign == '\n' || name == NULL ? 0 : sign;
  value->NUMBER = sign - '0';
  return NUMBER;
}
void yyerror (YYLTYPE *place, int *count, const char *name, const char *what)
{
  printf ("%s at %d: %s, %d\n", name, place->first_column, what, *count);
}
int main (void)
{
  int count = 0;
  int status = yyparse (&count, "first");
  yypstate *parse = yypstate_new ();

  printf ("ended %d, count %d\n", status, count);
  status = yypull_parse (parse, &count, "second");
  printf ("ended %d, count %d, errors %d\n", status, count, parse->yynerrs);
  yypstate_delete (parse);
  return status;
}
