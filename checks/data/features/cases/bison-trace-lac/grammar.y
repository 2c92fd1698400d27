%define parse.trace
%define parse.error verbose
%define parse.lac full
%locations
%code top {
#define YYINITDEPTH 6
}
%code {
#include "lexer.h"
static int yylex (void);
static void yyerror (const char *what);
}
%union {
  int number;
}
%nterm <number> sum
%printer { fprintf (yyo, "%d in %d", $$, @$.first_line); } <number>
%destructor { printf ("gone %d\n", $$); } <number>
%token <number> NUMBER "number"
%token END 0 "the end"
%nonassoc '<'
%left '+'
%left '*'
%initial-action { @$.first_line = @$.last_line = 3; }
%%
all : %empty
    | all line
    ;
line :
       sum ';'        {
                        printf ("sum %d\n", $1);
                        if ($1 == 9)
                          YYACCEPT;
                        if ($1 == 8)
                          YYERROR;
                        if ($1 == 7)
                          yychar = '+';
                        if ($1 == 6)
                          YYABORT;
                      }
     | error ';'      { yyerrok; }
     | '!'
       { printf ("first\n"); }
       sum ';'        { printf ("not %d\n", $3); }
     | '?' { $<number>$ = 5; } sum
       ';'            { printf ("%d or %d\n", $<number>2, $3); }
     | '%'            { YYBACKUP (NUMBER, yylval); }
     ;
sum : NUMBER
    | '(' sum ')'     { $$ = $2; }
    | '(' error ')'   { $$ = 0; }
    | sum '+' sum     { $$ = $1 + $3; }
    | sum '*' sum     { $$ = $1 * $3; }
    | sum '<' sum     { $$ = $1 < $3; }
    ;
%%
static int yylex (void)
{
  int sign = read_sign ();

  yylloc.first_column = yylloc.last_column++;
  if (IS_DIGIT (sign))
    {
      yylval.number = sign - '0';
      return NUMBER;
    }
  if (sign == '#')
    {
      printf ("said by the lexer\n");
      return YYerror;
    }
  return sign == '\n' ? 0 : sign;
}
static void yyerror (const char *what)
{
  printf ("said: %s\n", what);
}
int main (void)
{
  int ended;

  yydebug = 1;
  ended = yyparse ();
  printf ("ended %d\n", ended);
  return ended;
}
