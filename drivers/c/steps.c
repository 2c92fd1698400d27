/* Writes the steps of parses, for checks/parsers/drivers.py. Standard input has any number of cases: a
   line `LENGTH MESSAGES TOKENS MOST DIGEST`, LENGTH bytes of a table, MESSAGES bytes of messages, none
   where that is 0, and TOKENS lines with the name of a token each. The answer to each is a line for
   each step, at most MOST, as `ystep` has them, and `== ` with what came of it, and after a colon the
   message for its first error, where there is one. With -Drealloc=refusing each size of memory is
   refused once in a case, and asked for again.
*/
#ifdef realloc
#undef realloc
#define REFUSES
#endif

#include "ydmessages.h"
#include "ydriver.h"

#include <stdio.h>
#include <stdlib.h>
#include <string.h>

#ifdef REFUSES
void *refusing(void *old, size_t size);

/* The sizes that were refused in this case. */
static size_t sizes[64], refused;

static int is_new(size_t size) {
  for (size_t at = 0; at < refused; at++)
    if (sizes[at] == size) return 0;
  return refused < sizeof sizes / sizeof *sizes;
}

void *refusing(void *old, size_t size) {
  if (!is_new(size)) return realloc(old, size);
  sizes[refused++] = size;
  return NULL;
}
#endif

typedef struct {
  const yd_table *table;
  const yd_messages *messages;
  size_t made, most;
  char said[4096];
  size_t said_length;
} trace;

static const char *const words[] = {"shift ", "reduce ", "accept", "detect",
                                    "pop ",   "shift error", "discard ", "fail"};
static const char *const results[] = {"more",      "accepted", "failed", "no token",
                                      "no memory", "limit",    "broken"};

static void write_step(void *context, yd_kind kind, int number) {
  trace *to = context;
  if (++to->made > to->most) return;
  printf("%zu %s", to->made, words[kind]);
  if (kind == YD_REDUCE) printf("%d", number);
  if (kind == YD_SHIFT || kind == YD_POP || kind == YD_DISCARD)
    fputs(yd_name(to->table, number), stdout);
  putchar('\n');
}

/* Keeps the message for the first error; it is asked for again where there was no memory. */
static void keep_message(void *context, const yd_parser *parser, int token, yd_span span) {
  trace *to = context;
  size_t length = to->said_length ? to->said_length : YD_UNKNOWN;
  for (int turn = 0; turn < 64 && length == YD_UNKNOWN; turn++)
    length = yd_message(to->messages, parser, token, span, NULL, NULL, to->said, sizeof to->said);
  to->said_length = length < sizeof to->said ? length : sizeof to->said - 1;
}

/* Writes what came of a case, and the message, its ends of lines as `\\n`. */
static void write_result(const trace *of, const char *result) {
  printf("== %s%s", result, of->said_length ? ": " : "");
  for (size_t at = 0; at < of->said_length; at++)
    if (of->said[at] == '\n') fputs("\\n", stdout);
    else putchar(of->said[at]);
  putchar('\n');
}

/* Pushes a token, or the end where there is no name, and once more where there was no memory. */
static yd_result push(yd_parser *parser, const char *name, size_t place) {
  yd_span span = {place, place};
  int token = name ? yd_find(parser->table, name) : -1;
  yd_result result = YD_NO_MEMORY;
  for (int turn = 0; turn < 64 && result == YD_NO_MEMORY; turn++)
    result = name ? yd_push(parser, token, (yd_value){0}, span) : yd_finish(parser, span);
  return result;
}

static yd_result push_all(yd_parser *parser, const trace *to, char **names, size_t count) {
  yd_result result = YD_MORE;
  for (size_t at = 0; at <= count && result == YD_MORE && to->made < to->most; at++)
    result = push(parser, names[at], at + 1);
  return result;
}

static void parse(trace *to, char **names, size_t count) {
  yd_parser parser;
#ifdef REFUSES
  refused = 0;
#endif
  yd_start(&parser, to->table, (yd_calls){.context = to, .step = write_step, .error = keep_message});
  parser.limit = to->most;
  yd_result result = push_all(&parser, to, names, count);
  write_result(to, to->made >= to->most ? "cut" : results[result]);
  yd_stop(&parser);
}

/* Exactly so many bytes, so that a read past their end is seen. */
static char *read_bytes(size_t length) {
  char *text = malloc(length ? length : 1);
  if (!text || fread(text, 1, length, stdin) != length) exit(2);
  return text;
}

static char *read_name(void) {
  char line[4096];
  if (!fgets(line, sizeof line, stdin)) exit(2);
  line[strcspn(line, "\n")] = '\0';
  char *name = malloc(strlen(line) + 1);
  return name ? strcpy(name, line) : (exit(2), NULL);
}

/* Parses a case, or says which line of its table, or of its messages, is at fault. */
static void answer_with(const char *text, size_t length, unsigned long digest, char **names,
                        size_t count, const char *said, size_t said_length, size_t most) {
  yd_fault fault;
  yd_table *table = yd_read_checked(text, length, digest, &fault);
  yd_messages *messages =
      table && said_length ? yd_read_messages(said, said_length, digest, &fault) : NULL;
  if (!table || (said_length && !messages)) {
    printf("== line %zu: %s\n", fault.line, fault.what);
  } else {
    trace to = {table, messages, 0, most, "", 0};
    parse(&to, names, count);
  }
  yd_free_messages(messages);
  yd_free(table);
}

static void answer(size_t length, size_t said_length, size_t count, size_t most,
                   unsigned long digest) {
  char *text = read_bytes(length), *said = read_bytes(said_length);
  char **names = calloc(count + 1, sizeof *names);
  if (!names) exit(2);
  for (size_t at = 0; at < count; at++) names[at] = read_name();
  answer_with(text, length, digest, names, count, said, said_length, most);
  for (size_t at = 0; at < count; at++) free(names[at]);
  free(names);
  free(text);
  free(said);
}

int main(void) {
  size_t length, said, count, most;
  unsigned long digest;
  char newline;
  while (scanf("%zu %zu %zu %zu %lu%c", &length, &said, &count, &most, &digest, &newline) == 6)
    answer(length, said, count, most, digest);
  return 0;
}
