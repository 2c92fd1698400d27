/* Eight threads call at once, so many times each: they must be answered as the first call was. The
   sum comes last. */
#include "sulderko.h"

#include <pthread.h>
#include <stdio.h>
#include <stdlib.h>
#include <string.h>

enum { THREADS = 8, MOST = 1 << 14 };

static const char GRAMMAR[] = "%token NUM %left '+' %% sum : sum '+' sum | NUM ; %%";
static const char TOKENS[] = "NUM '+' NUM '+' NUM";
static const char COMMANDS[] = "run 3\nshow\nback 1\ntree\nrun 100\nunwind\nnonsense\n";

typedef struct answers {
  char session[MOST], report[MOST];
  size_t lengths[2];
  sulderko_verdict verdict;
  sulderko_conflicts conflicts;
} answers;

static answers first, each[THREADS];
static unsigned long wrong[THREADS], turns;

static void ask(answers *it) {
  unsigned int status;
  memset(it, 0, sizeof *it);
  status = sulderko_session(GRAMMAR, strlen(GRAMMAR), TOKENS, strlen(TOKENS), COMMANDS,
                            strlen(COMMANDS), it->session, MOST, it->lengths);
  status |=
      sulderko_report(GRAMMAR, strlen(GRAMMAR), it->report, MOST, it->lengths + 1, &it->conflicts);
  status |= sulderko_judge(GRAMMAR, strlen(GRAMMAR), TOKENS, strlen(TOKENS), &it->verdict);
  if (status)
    it->lengths[0] = 0;
}

static void *turn(void *given) {
  size_t at = (size_t)((answers *)given - each), count;
  for (count = 0; count < turns; count++) {
    ask(each + at);
    wrong[at] += memcmp(each + at, &first, sizeof first) != 0;
  }
  return NULL;
}

int main(int argc, char **argv) {
  pthread_t threads[THREADS];
  unsigned long failed = 0;
  size_t at;
  turns = argc > 1 ? (unsigned long)atol(argv[1]) : 200;
  ask(&first);
  for (at = 0; at < THREADS; at++)
    if (pthread_create(threads + at, NULL, turn, each + at))
      return 2;
  for (at = 0; at < THREADS; at++) {
    pthread_join(threads[at], NULL);
    failed += wrong[at];
  }
  failed += first.lengths[0] == 0;
  printf("%lu passed, %lu failed\n", THREADS * turns + 1 - failed, failed);
  return failed != 0;
}
