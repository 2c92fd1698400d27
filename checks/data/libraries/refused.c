/* Counts allocations, and refuses those of some numbers. */
#define _GNU_SOURCE
#include <dlfcn.h>
#include <stdio.h>
#include <stdlib.h>
#include <unistd.h>

static long calls, refused = -1, last;
static void *(*plain_malloc)(size_t), *(*plain_realloc)(void *, size_t);

static int refuses(void) {
  if (refused < 0) {
    refused = atol(getenv("REFUSED"));
    last = atol(getenv("LAST"));
    plain_malloc = dlsym(RTLD_NEXT, "malloc");
    plain_realloc = dlsym(RTLD_NEXT, "realloc");
  }
  calls++;
  return refused <= calls && calls <= last;
}

void *malloc(size_t size) { return refuses() ? NULL : plain_malloc(size); }
void *realloc(void *old, size_t size) { return refuses() ? NULL : plain_realloc(old, size); }

__attribute__((destructor)) static void tell(void) {
  char text[32];
  int length = snprintf(text, sizeof text, "%ld", calls);
  if (write(atoi(getenv("COUNTED")), text, length) != length) _exit(99);
}
