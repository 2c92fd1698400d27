%define api.pure full
%define api.push-pull push
%locations
%{
#include <stdio.h>
#define YYINITDEPTH 4
#define YYMAXDEPTH 100
%}
%code {
static void yyerror (YYLTYPE *place, const char *what);
}
%%
all : list            { printf ("list %d\n", $1); }
    ;
list : 'x'            { $$ = 1; }
     | 'x' list       { $$ = $2 + 1; }
     ;
%%
static void yyerror (YYLTYPE *place, const char *what)
{
  printf ("said at %d: %s\n", place->first_column, what);
}
int main (void)
{
  int turn, left, most, status;
  yypstate *parse = yypstate_new ();

  if (scanf ("%d", &most) != 1)
    return 3;
  for (turn = 0; turn < 3; turn++)
    {
      left = most;
      do
        {
          YYLTYPE place = { 1, 1, 1, 1 };

          place.first_column = left;
          status = yypush_parse (parse, left-- > 0 ? 'x' : 0, NULL, &place);
        }
      while (status == YYPUSH_MORE);
      printf ("ended %d\n", status);
    }
  yypstate_delete (parse);
  parse = yypstate_new ();
  for (left = 0; left < 50; left++)
    {
      YYLTYPE place = { 1, 1, 1, 1 };

      status = yypush_parse (parse, 'x', NULL, &place);
    }
  yypstate_delete (parse);
  return status;
}
