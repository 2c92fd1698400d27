/* The parser of byacc in PARSER, over the numbers in a file, with its trace (1) or without (0); at its end it prints
   the most memory that it held. */
#include <stdio.h>
#include <stdlib.h>
#include <string.h>
static int yylex(void);
static void yyerror(const char *message) { fprintf(stderr, "%s\n", message); }
#include PARSER
static FILE *input;
static int yylex(void) {
  int number;
  return fread(&number, sizeof number, 1, input) == 1 ? number : 0;
}
int main(int count, char **words) {
  static char room[1 << 16], line[256];
  if (count != 3 || !(input = fopen(words[1], "rb"))) return 2;
  setvbuf(stderr, room, _IOFBF, sizeof room);
  yydebug = atoi(words[2]);
  yyparse();
  FILE *status = fopen("/proc/self/status", "r");
  while (status && fgets(line, sizeof line, status))
    if (!strncmp(line, "VmHWM:", 6)) fputs(line + 6, stdout);
  return 0;
}
