/* sums: settings, and what is printed of them. Let it grow into your language. */
%{
#include <stdio.h>
#include "scan.h"

/* The value of each name, 0 before it is set. */
static double values[MOST_NAMES];
%}

%union {
  double number;
  int name;
}

%token <number> NUMBER
%token <name> NAME
%token PRINT
%type <number> sum

/* The lower a line, the closer its signs bind. SIGN is no token, but the place of a minus. */
%left '+' '-'
%left '*' '/'
%right SIGN

%%

program
    : program statement
    |
    ;

statement
    : NAME '=' sum ';'          { values[$1] = $3; }
    | PRINT sum ';'             { printf ("%g\n", $2); }
    | error ';'                 { yyerrok; }
    ;

sum
    : NUMBER
    | NAME                      { $$ = values[$1]; }
    | sum '+' sum               { $$ = $1 + $3; }
    | sum '-' sum               { $$ = $1 - $3; }
    | sum '*' sum               { $$ = $1 * $3; }
    | sum '/' sum               { $$ = $1 / $3; }
    | '-' sum %prec SIGN        { $$ = -$2; }
    | '(' sum ')'               { $$ = $2; }
    ;
