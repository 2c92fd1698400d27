%define parse.error detailed
%{
#include "plain.h"
#define N_(text) text
#define _(text) translated (text)
static const char *translated (const char *text);
%}
%token NUMBER _("number") PLUS "plus"
%token END 0 _("end of input")
%%
all : sum             { printf ("sum %d\n", $1); }
    ;
sum : NUMBER
    | sum PLUS NUMBER { $$ = $1 + $3; }
    | sum '-' NUMBER  { $$ = $1 - $3; }
    ;
%%
static const char *translated (const char *text)
{
  return text[0] == 'n' ? "Zahl" : "Ende";
}
static int yylex (void)
{
  int sign = read_sign ();

  yylval = sign - '0';
  return sign == '\n' ? END : sign == '+' ? PLUS : sign == 'N' ? 'N' : NUMBER;
}
static void yyerror (const char *what)
{
  printf ("said: %s\n", what);
}
int main (void)
{
  return yyparse ();
}
