%{
#include "plain.h"
static int first = __LINE__;
%}

%{
static const char *file = __FILE__;
static int second = __LINE__;
%}
%union {
  int number;
  char size[__LINE__];
}


%token <number> NUMBER
%type <number> one
%%

all : one one { printf ("action %s %d\n",
                        __FILE__, __LINE__); }
    ;

one :
    NUMBER
    { printf ("before %d\n", __LINE__); }
    {
      printf ("inner %d\n", __LINE__);

      $$ = $1;
      printf ("last %s %d\n", __FILE__, __LINE__);
    }
    ;
%%
static int tail = __LINE__;
static int yylex (void)
{
  int sign = read_sign ();

  yylval.number = sign - '0';
  return sign == '\n' ? 0 : NUMBER;
}
static void yyerror (const char *what)
{
  printf ("said: %s\n", what);
}
int main (void)
{
  printf ("%d %s %d %d %d\n", first, file, second, tail, __LINE__);
  printf ("%d\n", (int) sizeof yylval.size);
  return yyparse ();
}
