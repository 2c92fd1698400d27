%{
#include "lexer.h"
static int yylex (void);
static void yyerror (const char *what);
%}
%union {
  const char *type;
  int name;
}
%token <type> TYPE
%token <name> NAME
%type <type> type
%type <name> number
%%
all : line
    | all line
    ;
line : number type names ';'  { printf ("-- %d\n", $1); }
     ;
number :        { static int lines; $$ = ++lines; }
       ;
type : TYPE     { $$ = $1; }
     ;
names : NAME            { printf ("%s %c of line %d\n", $<type>0, $1, $<name>-1); }
      | names ',' more  { printf ("%s again, of line %d\n", $<type>0, $<name>-1); }
      ;
more : NAME             { printf ("%c follows\n", $1); $<name>$ = $<name>-1; }
     ;
%%
static int yylex (void)
{
  int sign = read_sign ();

  if (sign == 'i' || sign == 'd')
    {
      yylval.type = sign == 'i' ? "int" : "double";
      return TYPE;
    }
  if (IS_LETTER (sign))
    {
      yylval.name = sign;
      return NAME;
    }
  return sign == '\n' ? 0 : sign;
}
static void yyerror (const char *what)
{
  printf ("said: %s\n", what);
}
int main (void)
{
  return yyparse ();
}
