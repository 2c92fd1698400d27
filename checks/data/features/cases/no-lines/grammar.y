%{
#include <string.h>
#include "plain.h"
static const char *file = __FILE__;
static int first = __LINE__ > 9;
%}
%token NUMBER
%%
all : NUMBER NUMBER { printf ("action %s %d\n", __FILE__, __LINE__ > 100); }
    ;
%%
static const char *tail = __FILE__;
#define main plain
int main (void);
#include "plain_tail.h"
#undef main
int main (void)
{
  printf ("%s %s %d\n", file, tail, first);
  return plain ();
}
