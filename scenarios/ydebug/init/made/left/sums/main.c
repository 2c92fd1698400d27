/* Runs a text of sums: that of a file, or standard input. */
#include <stdio.h>
#include <stdlib.h>
#include "scan.h"

static const char *path = "-";
static int error_count;

/* The parser calls it for each error; it goes on after the next semicolon. */
void
yyerror (const char *message)
{
  fprintf (stderr, "%s:%d:%d: %s\n", path, token_line, token_column, message);
  error_count++;
}

/* All of a file. Where memory runs out or it can't be read, the program ends. */
static char *
read_all (FILE *file, size_t *length)
{
  size_t size = 0;
  char *text = NULL;

  *length = 0;
  do
    {
      size = size == 0 ? 4096 : 2 * size;
      text = realloc (text, size);
      if (text == NULL)
        {
          fprintf (stderr, "%s: no memory\n", path);
          exit (2);
        }
      *length += fread (text + *length, 1, size - *length, file);
    }
  while (*length == size);
  if (ferror (file))
    {
      perror (path);
      exit (2);
    }
  return text;
}

int
main (int argc, char **argv)
{
  FILE *file = stdin;
  char *text;
  size_t length;
  int failed;

  if (argc > 2)
    {
      fprintf (stderr, "usage: %s [file]\n", argv[0]);
      return 2;
    }
  if (argc == 2)
    {
      path = argv[1];
      file = fopen (path, "r");
      if (file == NULL)
        {
          perror (path);
          return 2;
        }
    }
  text = read_all (file, &length);
  scan_text (text, length);
  failed = yyparse () != 0 || error_count > 0;
  free (text);
  return failed;
}
