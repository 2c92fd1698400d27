%define parse.error verbose
%locations
%{
#include "plain.h"
%}
%token NUMBER
%left '+'
%left '*'
%nonassoc '<'
%%
all : %empty          { printf ("none\n"); }
    | all line        { printf ("line\n"); }
    ;
line : sum ';'        { printf ("sum %d\n", $1); }
     | error          { printf ("error %d to %d\n", @1.first_column, @1.last_column); }
     | '{' all '}'    { printf ("block\n"); }
     | '=' error ';'  { printf ("assignment\n"); yyerrok; }
     ;
sum : NUMBER          { printf ("number\n"); }
    | sum '+' sum     { printf ("plus\n"); $$ = $1 + $3; }
    | sum '*' sum     { printf ("times\n"); $$ = $1 * $3; }
    | sum '<' sum     { printf ("less\n"); $$ = $1 < $3; }
    | '(' sum ')'     { printf ("brackets\n"); $$ = $2; }
    | '(' error ')'   { printf ("no brackets %d to %d\n", @2.first_column, @2.last_column); $$ = 0; }
    ;
%%
static int place;

static int yylex (void)
{
  int sign = read_sign ();
  yylloc.first_line = yylloc.last_line = 1;
  yylloc.first_column = yylloc.last_column = ++place;

  printf ("read %c\n", sign == '\n' || sign == 0 ? '$' : sign);
  if (IS_DIGIT (sign))
    {
      yylval = sign - '0';
      return NUMBER;
    }
  return sign == '\n' ? 0 : sign;
}

static void yyerror (const char *what)
{
  printf ("said: %s\n", what);
}

int main (void)
{
  int ended = yyparse ();
  printf ("ended %d, errors %d\n", ended, yynerrs);
  return ended;
}
