/* Blocks of the playground's heap at random, over memory of this machine: no block overlaps
   another, each keeps its bytes when it grows, and what is too much is refused. HEAP is its source,
   and the linker puts __heap_base where memory begins here. */
#define _GNU_SOURCE
#include <stdio.h>
#include <stdlib.h>
#include <string.h>
#include <sys/mman.h>

enum { PAGES_AT_FIRST = 4, SOME = 600, TURNS = 200000 };

static unsigned long end_of_memory, refusals;

static unsigned long memory_size(void) { return end_of_memory >> 16; }

/* Memory grows by pages; now and then it doesn't. */
static unsigned long memory_grow(unsigned long more) {
  unsigned long before = memory_size();
  if (refusals && rand() % refusals == 0)
    return -1ul;
  if (mmap((void *)end_of_memory, more << 16, PROT_READ | PROT_WRITE,
           MAP_PRIVATE | MAP_ANONYMOUS | MAP_FIXED_NOREPLACE, -1, 0) == MAP_FAILED)
    return -1ul;
  end_of_memory += more << 16;
  return before;
}

#define __builtin_wasm_memory_size(memory) memory_size()
#define __builtin_wasm_memory_grow(memory, more) memory_grow(more)
#include HEAP

typedef struct {
  u8 *at;
  u64 bytes;
  u8 sign;
} Held;

static Held held[SOME];

static void fail(const char *what) {
  printf("%s\n", what);
  exit(1);
}

static u64 size_at_random(void) {
  u64 bytes = rand() % 100;
  return rand() % 8 ? bytes : bytes << (rand() % 14);
}

static void look(const Held *it) {
  for (u64 at = 0; at < it->bytes; at++)
    if (it->at[at] != it->sign)
      fail("a block has lost its bytes");
}

static void fill(Held *it, Answer found, u64 bytes) {
  if (found.at % 16)
    fail("a block begins between words");
  it->at = (u8 *)found.at;
  it->bytes = bytes;
  memset(it->at, it->sign, bytes);
}

static void grow(Held *it) {
  u64 bytes = size_at_random(), kept = bytes < it->bytes ? bytes : it->bytes;
  Answer found = rattle_realloc(it->at, kept, bytes, 16);
  if (!found.done) {
    look(it);
    return;
  }
  it->at = (u8 *)found.at;
  it->bytes = kept;
  look(it);
  fill(it, found, bytes);
}

static void turn(Held *it) {
  u64 bytes = size_at_random();
  Answer found;
  if (it->at && rand() % 3) {
    look(it);
    grow(it);
  } else if (it->at) {
    look(it);
    rattle_dealloc(it->at);
    it->at = 0;
  } else if ((found = rattle_alloc(bytes, 16)).done) {
    fill(it, found, bytes);
  }
}

static void refuse_large(void) {
  u64 large[] = {(1ull << 30) + 1, 1ull << 32, -1ull, (1ull << 30) - 15};
  for (int at = 0; at < 4; at++)
    if (rattle_alloc(large[at], 1).done)
      fail("what is too much is given");
}

/* Takes memory up to its end, and gives all back; how many blocks that was. */
static int take_all(void) {
  Answer last = {0, 0}, found;
  int count = 0;
  for (; (found = rattle_alloc(1 << 20, 1)).done; count++) {
    memcpy((void *)found.at, &last, sizeof last);
    last = found;
  }
  if (end_of_memory > (1ull << 30) + (MORE << PAGE))
    fail("memory beyond the limit");
  for (; last.done; last = found) {
    memcpy(&found, (void *)last.at, sizeof found);
    rattle_dealloc((u8 *)last.at);
  }
  return count;
}

int main(void) {
  end_of_memory = (unsigned long)&__heap_base;
  memory_grow(PAGES_AT_FIRST);
  for (int at = 0; at < SOME; at++)
    held[at].sign = (u8)at;
  for (int at = 0; at < TURNS; at++) {
    refusals = at % 5000 < 2500 ? 0 : 3;
    turn(&held[rand() % SOME]);
  }
  for (int at = 0; at < SOME; at++)
    if (held[at].at)
      look(&held[at]);
  refusals = 0;
  refuse_large();
  if (take_all() < 500 || take_all() < 500)
    fail("memory is lost");
  rattle_dealloc(0);
  puts("1 passed, 0 failed");
  return 0;
}
