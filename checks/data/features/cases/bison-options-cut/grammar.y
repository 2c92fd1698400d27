%{
#include "plain.h"
%}
%token NUMBER
%%
all : NUMBER        { printf ("%d\n", $1); }
    | all '+' NUMBER { printf ("and %d\n", $3); }
    ;
%%
static void show_names (void)
{
  int kind;

  for (kind = 0; yytname[kind]; kind++)
    if (yytname[kind][0] == 'N' || yytname[kind][0] == '\'')
      printf ("%s\n", yytname[kind]);
}
#define main own_main
#include "plain_tail.h"
#undef main
int main (void)
{
  show_names ();
  return own_main ();
}
