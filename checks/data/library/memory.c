/* Refuses each allocation of each call, one after the other, by itself and with all later ones:
 * the call then answers that memory ran out, or goes on without, and gives all back. It is linked
 * with --wrap for malloc, realloc and free. The sum comes last. */
#include "sulderko.h"

#include <stdio.h>
#include <stdlib.h>
#include <string.h>

static const char GRAMMAR[] = "%token NUM %left '+' %% sum : sum '+' sum | NUM ; %%";
static const char TOKENS[] = "NUM '+' NUM '+' NUM";
static const char COMMANDS[] = "run 3\nshow\nback 1\ninsert NUM\ndrop\ntree\nrun 100\nunwind\n";

enum { MOST = 1 << 14, CANARY = 0x5a };

static unsigned long passed, failed, asked, first, last, live;

void *__real_malloc(size_t size);
void *__real_realloc(void *old, size_t size);
void __real_free(void *old);

static int refuses(void) {
  asked++;
  return first <= asked && asked <= last;
}

void *__wrap_malloc(size_t size) {
  void *made = refuses() ? NULL : __real_malloc(size);
  live += made != NULL;
  return made;
}

void *__wrap_realloc(void *old, size_t size) {
  void *made = refuses() ? NULL : __real_realloc(old, size);
  live += made != NULL && old == NULL;
  return made;
}

void __wrap_free(void *old) {
  live -= old != NULL;
  __real_free(old);
}

/* What a call hands over. */
typedef struct answer {
  char text[MOST];
  size_t numbers[64], len;
  sulderko_verdict verdict;
  sulderko_fault_info fault;
  sulderko_conflicts conflicts;
  sulderko_sizes sizes;
} answer;

static answer whole, made, blank;

static unsigned int session(answer *it) {
  return sulderko_session(GRAMMAR, strlen(GRAMMAR), TOKENS, strlen(TOKENS), COMMANDS,
                          strlen(COMMANDS), it->text, MOST, &it->len);
}

static unsigned int table(answer *it) {
  return sulderko_table(GRAMMAR, strlen(GRAMMAR), it->text, MOST, &it->len, &it->conflicts);
}

static unsigned int report(answer *it) {
  return sulderko_report(GRAMMAR, strlen(GRAMMAR), it->text, MOST, &it->len, &it->conflicts);
}

static unsigned int code(answer *it) {
  return sulderko_code(GRAMMAR, strlen(GRAMMAR), SULDERKO_ROW, it->numbers, 64, &it->len,
                       &it->sizes);
}

static unsigned int tokens(answer *it) {
  return sulderko_tokens(GRAMMAR, strlen(GRAMMAR), TOKENS, strlen(TOKENS), it->numbers, 64,
                         &it->len);
}

static unsigned int verdict(answer *it) {
  return sulderko_judge(GRAMMAR, strlen(GRAMMAR), TOKENS, strlen(TOKENS), &it->verdict);
}

static unsigned int fault(answer *it) {
  return sulderko_fault(GRAMMAR, strlen(GRAMMAR), TOKENS, strlen(TOKENS), &it->fault);
}

/* A parse behind a handle, to its end and back to its start, as far as there is memory. */
static unsigned int parse(answer *it) {
  sulderko_handle handle = SULDERKO_CLOSED;
  sulderko_move move;
  unsigned int status =
      sulderko_open(GRAMMAR, strlen(GRAMMAR), TOKENS, strlen(TOKENS), &handle);
  while (status == SULDERKO_DONE)
    status = sulderko_step(&handle, &move);
  if (status == SULDERKO_HALTED)
    status = sulderko_unwind(&handle, it->text, MOST, &it->len);
  sulderko_close(&handle);
  return status;
}

/* Which tokens could come next after three steps. */
static unsigned int outlooks(answer *it) {
  sulderko_handle handle = SULDERKO_CLOSED;
  sulderko_move move;
  unsigned int status =
      sulderko_open(GRAMMAR, strlen(GRAMMAR), TOKENS, strlen(TOKENS), &handle);
  int at;
  for (at = 0; at < 3 && status == SULDERKO_DONE; at++)
    status = sulderko_step(&handle, &move);
  if (status == SULDERKO_DONE)
    status = sulderko_expected(&handle, (unsigned char *)it->text, MOST, &it->len);
  sulderko_close(&handle);
  return status;
}

/* Whether an answer is what it may be where memory ran out: that alone, with nothing handed over;
 * all of it; or the replies of a session that says so. */
static int may_be(unsigned int status, int is_session) {
  if (status == SULDERKO_NO_MEMORY) {
    int is_length = made.len == 0 || made.len == blank.len;
    made.len = blank.len;
    memset(&made.fault, CANARY, sizeof made.fault);
    return is_length && !memcmp(&made, &blank, sizeof made);
  }
  if (status != SULDERKO_DONE)
    return 0;
  made.text[MOST - 1] = 0;
  return !memcmp(&made, &whole, sizeof made) ||
         (is_session && strstr(made.text, "no memory\n") != NULL);
}

/* One run of a call with allocations refused. */
static unsigned int run(unsigned int (*call)(answer *), unsigned long from, unsigned long to) {
  unsigned int status;
  memcpy(&made, &blank, sizeof made);
  first = from, last = to, asked = live = 0;
  status = call(&made);
  first = last = 0;
  return status;
}

static void each_refused(unsigned int (*call)(answer *)) {
  unsigned long count, at, to;
  failed += run(call, 0, 0) != SULDERKO_DONE || live != 0;
  memcpy(&whole, &made, sizeof made);
  count = asked;
  for (at = 1; at <= count; at++)
    for (to = at;; to = (unsigned long)-1) {
      int holds = may_be(run(call, at, to), call == session) && live == 0;
      passed += holds != 0, failed += holds == 0;
      if (!holds)
        printf("--- allocation %lu of %lu FAILED\n", at, count);
      if (to != at)
        break;
    }
}

int main(void) {
  unsigned int (*const calls[])(answer *) = {session,  table, report, code,    tokens,
                                                verdict,  fault, parse,  outlooks};
  size_t at;
  memset(&blank, CANARY, sizeof blank);
  for (at = 0; at < sizeof calls / sizeof *calls; at++)
    each_refused(calls[at]);
  printf("%lu passed, %lu failed\n", passed, failed);
  return failed != 0;
}
