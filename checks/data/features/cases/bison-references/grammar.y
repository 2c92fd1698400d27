%{
#include "lexer.h"
static int yylex (void);
static void yyerror (const char *what);
static void twice (int *number);
%}
%union {
  struct { int number; } one;
  int *place;
  int list[3];
}
%token <one> NUMBER
%type <list> list
%type <place> place
%type <one> first.one
%locations
%%
all : list place first.one[third]
      {
        twice (&$<list>1[1]);
        printf ("%d %d %d\n", $1[1], *$2, $third.number);
        printf ("%d %d\n", $<one.number>3 + 0, $<one>[third].number);
        printf ("%d %d\n", @[third].last_column, @third.last_column - @$.first_column);
        @$ = @1; @$.last_column = 9;
        (void) @place;
      }
    ;
list : NUMBER         { $$[0] = 0; $$[1] = $1.number; $<list>$[2] = 5; }
     ;
place : NUMBER        { static int kept; $$ = &kept; *$$ = $1.number; @$ = @1; }
      ;
first.one : NUMBER    { $$ = $NUMBER; $[first.one].number += 1; }
          ;
%%
static void twice (int *number)
{
  *number *= 2;
}
static int yylex (void)
{
  int sign = read_sign ();

  yylloc.first_column = yylloc.last_column++;
  yylval.one.number = sign - '0';
  return sign == '\n' ? 0 : NUMBER;
}
static void yyerror (const char *what)
{
  printf ("said: %s\n", what);
}
int main (void)
{
  return yyparse ();
}
