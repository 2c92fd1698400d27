/* Parses the numbers in a file five times, and prints the million tokens of a second
   of processor time in the fastest. With
   PARSER, the file of a parser of byacc, by that one; else by the driver and the table that the
   second word names. See checks/times/drivers.py. */
#include <stdio.h>
#include <stdlib.h>
#include <time.h>

static int *numbers;
static size_t count;

static void *read_all(const char *path, size_t *length) {
  FILE *file = fopen(path, "rb");
  if (!file || fseek(file, 0, SEEK_END)) exit(2);
  *length = (size_t)ftell(file);
  char *text = malloc(*length + 1);
  rewind(file);
  if (!text || fread(text, 1, *length, file) != *length) exit(2);
  fclose(file);
  return text;
}

#ifdef PARSER
static size_t at;
static int yylex(void) { return at < count ? numbers[at++] : 0; }
static void yyerror(const char *message) { fprintf(stderr, "%s\n", message); }
#include PARSER

static int parse_all(const char *path) {
  (void)path;
  at = 0;
  return yyparse() == 0;
}
#else
#include "ydriver.h"
static yd_table *table;
static size_t reductions;

static yd_value reduce(void *context, int rule, int left, const yd_entry *entries, size_t length) {
  (void)context, (void)rule, (void)left;
  reductions++;
  return length ? entries->value : (yd_value){0};
}

/* The table is read, and the numbers become symbols, at the first call. */
static void read_table(const char *path) {
  size_t length;
  char *text = read_all(path, &length);
  table = yd_read(text, length, NULL);
  if (!table) exit(2);
  free(text);
  for (size_t each = 0; each < count; each++) numbers[each] = yd_token(table, numbers[each]);
}

static int parse_all(const char *path) {
  yd_parser parser;
  yd_result result = YD_MORE;
  if (!table) read_table(path);
  yd_start(&parser, table, (yd_calls){.reduce = reduce});
  parser.limit = (size_t)-1;
  for (size_t each = 0; each < count && result == YD_MORE; each++)
    result = yd_push(&parser, numbers[each], (yd_value){0}, (yd_span){each, each});
  result = yd_finish(&parser, (yd_span){count, count});
  yd_stop(&parser);
  return result == YD_ACCEPTED && !parser.errors;
}
#endif

static double now(void) { return (double)clock() / CLOCKS_PER_SEC; }

int main(int words, char **word) {
  double least = 1e9;
  if (words < 2) return 2;
  numbers = read_all(word[1], &count);
  count /= sizeof *numbers;
  for (int turn = 0; turn < 6; turn++) {
    double start = now();
    if (!parse_all(words > 2 ? word[2] : NULL)) return 1;
    if (turn && now() - start < least) least = now() - start;
  }
  printf("%.1f\n", (double)count / least / 1e6);
  return 0;
}
