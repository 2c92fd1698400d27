%define parse.error verbose
%{
#include "plain.h"
%}
%token IF "i"
%token NUMBER "number"
       THEN   "then"
       ELSE   "else" SEMI 600 ";"
%token AT_LEAST ">=" MORE ">"
%type <number> sum
%union { int number; }
%token <number> NUMBER
%precedence "then"
%precedence "else"
%left ">=" MORE
%%
all : line ";"        { printf ("line, %d\n", SEMI); }
    ;
line : "i" sum "then" line %prec "then"      { printf ("if %d\n", $2); }
     | "i" sum THEN line "else" line         { printf ("if %d, else\n", $2); }
     | sum                                   { printf ("%d\n", $1); }
     ;
sum : "number"
    | sum ">=" sum    { $$ = $1 >= $3; }
    | sum ">" sum     { $$ = $1 > $3; }
    ;
%%
static int word_of (int sign)
{
  switch (sign)
    {
    case 'i': return IF;
    case 't': return THEN;
    case 'e': return ELSE;
    case ';': return SEMI;
    case '>': return MORE;
    case '\n': return 0;
    default: return sign;
    }
}
static int yylex (void)
{
  int sign = read_sign ();

  if (IS_DIGIT (sign))
    {
      yylval.number = sign - '0';
      return NUMBER;
    }
  return word_of (sign);
}
static void yyerror (const char *what)
{
  printf ("said: %s\n", what);
}
int main (void)
{
  return yyparse ();
}
