%{
#include "lexer.h"
static int yylex (void);
static void yyerror (const char *what);
%}
%locations
%token NUMBER
%destructor { printf ("free %d at %d-%d\n", $$, @$.first_column, @$.last_column); } NUMBER
%%
all : part NUMBER     { printf ("part %d to %d\n", @1.first_column, @1.last_column); }
    ;
part : NUMBER NUMBER ';'
     | NUMBER error ';'  { printf ("wrong %d to %d\n", @2.first_column, @2.last_column); }
     ;
%%
static int yylex (void)
{
  int sign = read_sign ();

  yylloc.first_column = yylloc.last_column++;
  yylval = sign - '0';
  return sign == '\n' ? 0 : IS_DIGIT (sign) ? NUMBER : sign;
}
static void yyerror (const char *what)
{
  printf ("said at %d: %s\n", yylloc.first_column, what);
}
int main (void)
{
  return yyparse ();
}
