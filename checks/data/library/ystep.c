/* The program ystep over the library, but for its help: the scenarios of ystep run with it. */
#include "sulderko.h"

#include <stdio.h>
#include <stdlib.h>

enum { LONGEST_GRAMMAR = 1 << 20, MOST = 1 << 28 };

typedef struct bytes {
  char *at;
  size_t len;
} bytes;

/* Reads all, or one byte more than may be. Whether nothing failed. */
static int read_all(FILE *from, bytes *to, size_t most) {
  size_t room = 1 << 16, got = 1;
  to->at = malloc(room);
  while (to->at && got != 0 && to->len <= most) {
    got = fread(to->at + to->len, 1, room - to->len, from);
    to->len += got;
    if (to->len == room)
      to->at = realloc(to->at, room *= 2);
  }
  return to->at && !ferror(from);
}

static int read_file(const char *path, bytes *found, size_t most) {
  FILE *from = fopen(path, "rb");
  int is_read = from && read_all(from, found, most);
  if (from)
    fclose(from);
  if (!is_read)
    found->len = 0;
  return is_read;
}

static int say(const char *what) {
  fprintf(stderr, "ystep: %s\n", what);
  return 3;
}

static int cannot_read(const char *path) {
  fprintf(stderr, "ystep: cannot read %s\n", path);
  return 3;
}

/* Why there is no session. */
static int refuse(bytes grammar, bytes tokens) {
  sulderko_fault_info fault;
  switch (sulderko_fault(grammar.at, grammar.len, tokens.at, tokens.len, &fault)) {
  case SULDERKO_BAD_GRAMMAR:
    fprintf(stderr, fault.line ? "ystep: G%u at line %lu\n" : "ystep: G%u\n", fault.code,
            (unsigned long)fault.line);
    return 1;
  case SULDERKO_BAD_TOKENS:
    fprintf(stderr, fault.place ? "ystep: K%u at token %lu\n" : "ystep: K%u\n", fault.code,
            (unsigned long)fault.place);
    return 1;
  case SULDERKO_TOO_MANY_SETS:
    return say("B1");
  default:
    return say("no memory");
  }
}

/* The status of a session, and its replies. */
static unsigned int talk(bytes grammar, bytes tokens, bytes commands, bytes *said) {
  size_t room = 0;
  unsigned int status = SULDERKO_DONE;
  do {
    room = said->len ? said->len : 1 << 16;
    free(said->at);
    said->at = malloc(room);
    if (!said->at)
      return SULDERKO_NO_MEMORY;
    status = sulderko_session(grammar.at, grammar.len, tokens.at, tokens.len, commands.at,
                              commands.len, said->at, room, &said->len);
  } while (status == SULDERKO_DONE && said->len > room);
  return status;
}

int main(int argc, char **argv) {
  bytes grammar = {0}, tokens = {0}, commands = {0}, said = {0};
  int has_tokens, has_commands;
  if (argc != 3) {
    fputs("usage: ystep grammar tokens\n", stderr);
    return 2;
  }
  if (!read_file(argv[1], &grammar, LONGEST_GRAMMAR))
    return cannot_read(argv[1]);
  has_tokens = read_file(argv[2], &tokens, MOST);
  has_commands = has_tokens && read_all(stdin, &commands, MOST);
  if (talk(grammar, tokens, commands, &said) != SULDERKO_DONE)
    return refuse(grammar, tokens);
  if (!has_tokens)
    return cannot_read(argv[2]);
  if (!has_commands)
    return say("read fault");
  if (fwrite(said.at, 1, said.len, stdout) != said.len || fflush(stdout))
    return say("write fault");
  return 0;
}
