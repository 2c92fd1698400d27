/* A calculator into which tokens are pushed: each as soon as it was read, so that a sum is told at
   the end of its line, and what could come next is known at any time. */
%define api.pure full
%define api.push-pull push
%define parse.error detailed
%define parse.lac full

%code {
#include <ctype.h>
#include <stdio.h>

static void yyerror (const char *what);
}

%define api.value.type union
%token <double> NUMBER "a number"
%type <double> sum

%left '+' '-'
%left '*' '/'
%precedence SIGN

%%

lines : %empty
      | lines line
      ;

line : sum '\n'              { printf ("= %g\n", $1); }
     | '\n'
     | error '\n'            { yyerrok; }
     ;

sum : NUMBER
    | sum '+' sum            { $$ = $1 + $3; }
    | sum '-' sum            { $$ = $1 - $3; }
    | sum '*' sum            { $$ = $1 * $3; }
    | sum '/' sum            { $$ = $1 / $3; }
    | '-' sum %prec SIGN     { $$ = -$2; }
    | '(' sum ')'            { $$ = $2; }
    ;

%%

static void
yyerror (const char *what)
{
  printf ("%s\n", what);
}

/* Tells what could come next, where that is asked for. */
static void
tell (yypstate *parse)
{
  yysymbol_kind_t kinds[YYNTOKENS];
  int count = yypstate_expected_tokens (parse, kinds, YYNTOKENS);
  int at;

  printf ("here could be:");
  for (at = 0; at < count; at++)
    printf (" %s", yysymbol_name (kinds[at]));
  printf ("\n");
}

/* Pushes a number that begins with this digit, which may go on. */
static int
push_number (yypstate *parse, int digit)
{
  YYSTYPE value;

  ungetc (digit, stdin);
  if (scanf ("%lf", &value.NUMBER) != 1)
    return 1;
  return yypush_parse (parse, NUMBER, &value);
}

int
main (void)
{
  yypstate *parse = yypstate_new ();
  int status = YYPUSH_MORE;
  int c;

  if (!parse)
    return 2;
  while (status == YYPUSH_MORE && (c = getchar ()) != EOF)
    if (c == '?')
      tell (parse);
    else if (isdigit (c) || c == '.')
      status = push_number (parse, c);
    else if (c != ' ' && c != '\t')
      status = yypush_parse (parse, c, NULL);
  if (status == YYPUSH_MORE)
    status = yypush_parse (parse, YYEOF, NULL);
  yypstate_delete (parse);
  return status;
}
