/* A calculator: sums a line each, with the variables a to z. */
%{
#include <ctype.h>
#include <stdio.h>

static double values[26];
static int yylex (void);
static void yyerror (const char *what);
%}

%union {
  double number;
  int variable;
}

%token <number> NUMBER
%token <variable> VARIABLE
%type <number> sum

%right '='
%left '+' '-'
%left '*' '/'
%right SIGN

%%

lines : lines line
      |
      ;

line : sum '\n'         { printf ("%g\n", $1); }
     | '\n'
     | error '\n'       { yyerrok; }
     ;

sum : NUMBER
    | VARIABLE          { $$ = values[$1]; }
    | VARIABLE '=' sum  { $$ = values[$1] = $3; }
    | sum '+' sum       { $$ = $1 + $3; }
    | sum '-' sum       { $$ = $1 - $3; }
    | sum '*' sum       { $$ = $1 * $3; }
    | sum '/' sum       { $$ = $1 / $3; }
    | '-' sum %prec SIGN { $$ = -$2; }
    | '(' sum ')'       { $$ = $2; }
    ;

%%

/* The next token: a number, a variable, or a character that stands for itself. */
static int
yylex (void)
{
  int c = getchar ();

  while (c == ' ' || c == '\t')
    c = getchar ();
  if (isdigit (c) || c == '.')
    {
      ungetc (c, stdin);
      return scanf ("%lf", &yylval.number) == 1 ? NUMBER : '?';
    }
  if (islower (c))
    {
      yylval.variable = c - 'a';
      return VARIABLE;
    }
  return c == EOF ? 0 : c;
}

static void
yyerror (const char *what)
{
  printf ("%s\n", what);
}

int
main (void)
{
  return yyparse ();
}
