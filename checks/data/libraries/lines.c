/* Counts the allocations of each line of the input, and refuses some. */
#define _GNU_SOURCE
#include <dlfcn.h>
#include <stdio.h>
#include <stdlib.h>
#include <string.h>
#include <unistd.h>

typedef ssize_t transfer(int, void *, size_t);

static long line, number, at, asked, given, replied;

static long word(const char *name) { return getenv(name) ? atol(getenv(name)) : 0; }
static transfer *plain(const char *call) { return (transfer *)dlsym(RTLD_NEXT, call); }

/* Says what was asked for, read and written since the read before. */
static void tell(void) {
  char text[80];
  int length = snprintf(text, sizeof text, "%ld %ld %ld\n", asked, given, replied);
  if (plain("write")(word("COUNTED"), text, length) != length) _exit(99);
  asked = given = replied = 0;
}

/* Whether an allocation is the one of the number in a line, or one from that line on. */
static int refuses(void) {
  asked++;
  number += at > 0 && line >= at;
  return at > 0 && line >= at && (!word("NUMBER") || word("NUMBER") == number);
}

void *malloc(size_t size) {
  static void *(*usual)(size_t);
  if (!usual) usual = (void *(*)(size_t))dlsym(RTLD_NEXT, "malloc");
  return refuses() ? NULL : usual(size);
}
void *realloc(void *old, size_t size) {
  static void *(*usual)(void *, size_t);
  if (!usual) usual = (void *(*)(void *, size_t))dlsym(RTLD_NEXT, "realloc");
  return refuses() ? NULL : usual(old, size);
}

/* A read of the input gives a line at most. */
ssize_t read(int file, void *bytes, size_t count) {
  char *to = bytes;
  size_t got = 0;
  if (file) return plain("read")(file, bytes, count);
  tell();
  at = word("AT");
  line++;
  while (got < count && plain("read")(0, to + got, 1) == 1)
    if (to[got++] == '\n') break;
  given = got;
  return got;
}
ssize_t write(int file, const void *bytes, size_t count) {
  ssize_t took = plain("write")(file, (void *)bytes, count);
  if (file == 1 && took > 0) replied += took;
  return took;
}
ssize_t __write(int file, const void *bytes, size_t count) { return write(file, bytes, count); }
