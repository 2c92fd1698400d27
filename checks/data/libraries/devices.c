/* Disturbs the calls on one file: they fail, go through with no byte, or with few. */
#define _GNU_SOURCE
#include <dlfcn.h>
#include <errno.h>
#include <stdio.h>
#include <stdlib.h>
#include <string.h>
#include <unistd.h>

typedef ssize_t transfer(int, void *, size_t);

static const char *word(const char *name) {
  const char *found = getenv(name);
  return found ? found : "";
}

/* Whether a file is the one that is meant: a stream by its number, any other by its name. */
static int is_meant(int file) {
  char link[40], path[4096];
  const char *name = word("ON"), *end;
  ssize_t length;
  if (*name >= '0' && *name <= '9') return file == atoi(name);
  snprintf(link, sizeof link, "/proc/self/fd/%d", file);
  length = readlink(link, path, sizeof path - 1);
  if (length < 0) return 0;
  path[length] = 0;
  end = strrchr(path, '/');
  return end && !strcmp(end + 1, name);
}

static ssize_t disturbed(const char *call, int file, void *bytes, size_t count) {
  static long calls;
  transfer *plain = (transfer *)dlsym(RTLD_NEXT, call);
  size_t most = atol(word("MOST"));
  if (strcmp(call, word("CALL")) || !is_meant(file)) return plain(file, bytes, count);
  ((transfer *)dlsym(RTLD_NEXT, "write"))(atoi(word("COUNTED")), ".", 1);
  calls++;
  if (calls == atol(word("AT")) || (calls > atol(word("AT")) && !atol(word("ONCE")))) {
    errno = EIO;
    return strcmp(word("HOW"), "fail") ? 0 : -1;
  }
  return plain(file, bytes, most && count > most ? most : count);
}

ssize_t read(int file, void *bytes, size_t count) { return disturbed("read", file, bytes, count); }
ssize_t write(int file, const void *bytes, size_t count) {
  return disturbed("write", file, (void *)bytes, count);
}
ssize_t __write(int file, const void *bytes, size_t count) { return write(file, bytes, count); }
