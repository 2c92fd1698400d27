/* Gives each call every room up to more than it needs, null pointers without bytes, and what is
   refused. A number says by how many bytes rooms grow, 1 without one. It writes a line for each
   thing that doesn't hold, and the sum last. */
#include "sulderko.h"

#include <stdio.h>
#include <stdlib.h>
#include <string.h>

static const char GRAMMAR[] = "%token NUM %left '+' %% sum : sum '+' sum | NUM ; %%";
static const char LOOSE[] = "%token NUM %% sum : sum '+' sum | NUM ;";
static const char TOKENS[] = "NUM '+' NUM '+' NUM";
static const char COMMANDS[] = "run 3\nshow\nback 1\ntree\nrun 100\nunwind\nnonsense\n";
static const char BROKEN[] = "%token NUM\n%% sum : sum '+' sum\n | NUM : ;";

enum { MOST = 1 << 14, CANARY = 0x5a };

static unsigned long passed, failed;

static void hold(int holds, const char *name, size_t at) {
  passed += holds != 0;
  failed += holds == 0;
  if (!holds)
    printf("--- %s, %lu FAILED\n", name, (unsigned long)at);
}

/* A text that is asked for: its call, and what it is given. */
typedef struct asked {
  const char *name;
  unsigned int (*call)(const struct asked *it, char *out, size_t room, size_t *len);
  const char *grammar, *tokens;
} asked;

static unsigned int session(const asked *it, char *out, size_t room, size_t *len) {
  return sulderko_session(it->grammar, strlen(it->grammar), it->tokens, strlen(it->tokens),
                          COMMANDS, strlen(COMMANDS), out, room, len);
}

static unsigned int table(const asked *it, char *out, size_t room, size_t *len) {
  sulderko_conflicts found = {77, 77};
  unsigned int status = sulderko_table(it->grammar, strlen(it->grammar), out, room, len, &found);
  hold((status == SULDERKO_DONE) == (found.shift_reduce != 77), "conflicts of a table", room);
  return status;
}

static unsigned int report(const asked *it, char *out, size_t room, size_t *len) {
  sulderko_conflicts found = {77, 77};
  unsigned int status = sulderko_report(it->grammar, strlen(it->grammar), out, room, len, &found);
  hold((status == SULDERKO_DONE) == (found.reduce_reduce != 77), "conflicts of a report", room);
  return status;
}

/* Numbers, as the bytes in which they lie. */
static unsigned int tokens(const asked *it, char *out, size_t room, size_t *len) {
  static size_t numbers[MOST];
  size_t count = room / sizeof *numbers;
  unsigned int status;
  if (room)
    memcpy(numbers, out, room);
  status = sulderko_tokens(it->grammar, strlen(it->grammar), it->tokens, strlen(it->tokens),
                           numbers, count, len);
  if (room)
    memcpy(out, numbers, room);
  *len *= sizeof *numbers;
  return status;
}

/* The longest array of a parser likewise. */
static unsigned int code(const asked *it, char *out, size_t room, size_t *len) {
  static size_t numbers[MOST];
  sulderko_sizes sizes = {77, 77, 77, 77};
  unsigned int status;
  if (room)
    memcpy(numbers, out, room);
  status = sulderko_code(it->grammar, strlen(it->grammar), SULDERKO_CHECK, numbers,
                         room / sizeof *numbers, len, &sizes);
  hold((status == SULDERKO_DONE) == (sizes.states != 77), "sizes of arrays", room);
  if (room)
    memcpy(out, numbers, room);
  *len *= sizeof *numbers;
  return status;
}

/* Which tokens could come first, as a byte for each. */
static unsigned int expected(const asked *it, char *out, size_t room, size_t *len) {
  sulderko_handle handle = SULDERKO_CLOSED;
  unsigned int status = sulderko_open(it->grammar, strlen(it->grammar), it->tokens,
                                      strlen(it->tokens), &handle);
  *len = 0;
  if (status == SULDERKO_DONE)
    status = sulderko_expected(&handle, (unsigned char *)out, room, len);
  sulderko_close(&handle);
  return status;
}

/* On a handle without a session likewise. */
static unsigned int closed(const asked *it, char *out, size_t room, size_t *len) {
  sulderko_handle handle = SULDERKO_CLOSED;
  (void)it;
  return sulderko_expected(&handle, (unsigned char *)out, room, len);
}

/* Whether bytes are as they were before the call. */
static int untouched(const char *out, size_t from, size_t to) {
  for (; from < to; from++)
    if (out[from] != CANARY)
      return 0;
  return 1;
}

/* Every room from none to more than is needed, by steps of some bytes. */
static void every_room(const asked *it, size_t step) {
  static char whole[MOST], out[MOST];
  size_t all = 0, len, room, part;
  memset(whole, CANARY, MOST);
  hold(it->call(it, whole, MOST, &all) == SULDERKO_DONE && all != 0 && all < MOST, it->name, MOST);
  for (room = 0; room <= all + 3 * step; room += step) {
    memset(out, CANARY, MOST);
    part = room < all ? room : all;
    hold(it->call(it, room ? out : NULL, room, &len) == SULDERKO_DONE && len == all, it->name,
         room);
    hold(!memcmp(out, whole, part) && untouched(out, part, MOST), it->name, room);
  }
}

/* A refusal hands nothing over. */
static void refused(const asked *it, unsigned int status) {
  static char out[MOST];
  size_t len = 55;
  memset(out, CANARY, MOST);
  hold(it->call(it, out, MOST, &len) == status && len == 0 && untouched(out, 0, MOST), it->name,
       status);
}

static void verdicts(void) {
  sulderko_verdict it = {9, 9, 9, 9};
  hold(sulderko_judge(GRAMMAR, strlen(GRAMMAR), TOKENS, strlen(TOKENS), &it) == SULDERKO_DONE,
       "judge", 0);
  hold(it.outcome == SULDERKO_ACCEPTED && it.exact == 0 && it.steps == 11 && it.token == 0, "judge",
       1);
  hold(sulderko_judge(GRAMMAR, strlen(GRAMMAR), "NUM NUM", 7, &it) == SULDERKO_DONE, "judge", 2);
  hold(it.outcome == SULDERKO_REJECTED && it.steps == 0 && it.token == 2, "judge", 3);
  hold(sulderko_judge("%% s : ;", 8, NULL, 0, &it) == SULDERKO_DONE, "judge", 4);
  hold(it.outcome == SULDERKO_ACCEPTED && it.exact == 1 && it.steps == 2 && it.token == 0, "judge",
       5);
  hold(sulderko_judge(NULL, 0, NULL, 0, &it) == SULDERKO_BAD_GRAMMAR && it.steps == 2, "judge", 6);
}

static void fault_is(const char *grammar, const char *text, unsigned int status, unsigned int code,
                     size_t line, size_t offset, size_t place) {
  sulderko_fault_info it = {9, 9, 9, 9};
  unsigned int found = sulderko_fault(grammar, strlen(grammar), text, strlen(text), &it);
  hold(found == status && it.code == code && it.line == line, grammar, 0);
  hold(it.offset == offset && it.place == place, grammar, 1);
}

static void faults(void) {
  sulderko_fault_info it = {9, 9, 9, 9};
  fault_is(GRAMMAR, TOKENS, SULDERKO_DONE, 0, 0, 0, 0);
  fault_is(BROKEN, "", SULDERKO_BAD_GRAMMAR, 6, 3, 35, 0);
  fault_is("%%\ns : t ;", "", SULDERKO_BAD_GRAMMAR, 7, 2, 7, 0);
  fault_is(GRAMMAR, "NUM sum", SULDERKO_BAD_TOKENS, 2, 0, 0, 2);
  fault_is(GRAMMAR, "NUM '+' NIM", SULDERKO_BAD_TOKENS, 1, 0, 0, 3);
  hold(sulderko_fault(NULL, 0, NULL, 0, &it) == SULDERKO_BAD_GRAMMAR && it.code == 5 &&
           it.line == 1,
       "no grammar", 0);
}

static void arrays(void) {
  static const size_t lengths[] = {2, 3, 1};
  sulderko_sizes sizes;
  size_t out[9], len;
  hold(sulderko_code(GRAMMAR, strlen(GRAMMAR), SULDERKO_LEN, out, 9, &len, &sizes) ==
           SULDERKO_DONE,
       "arrays", 0);
  hold(len == 3 && !memcmp(out, lengths, sizeof lengths), "arrays", 1);
  hold(sizes.rules == 3 && sizes.tokens == 4 && sizes.span == 1, "arrays", 2);
  hold(sulderko_code(GRAMMAR, strlen(GRAMMAR), 14, NULL, 0, &len, &sizes) == SULDERKO_DONE &&
           len == 0,
       "arrays", 3);
}

/* At its start the grammar takes NUM alone: tokens are $end, error, NUM and '+'. */
static void outlooks(void) {
  static const unsigned char first[] = {SULDERKO_UNEXPECTED, SULDERKO_UNEXPECTED,
                                        SULDERKO_EXPECTED, SULDERKO_UNEXPECTED};
  const asked it = {"expected", expected, GRAMMAR, TOKENS}, none = {"closed", closed, "", ""};
  unsigned char out[9];
  size_t len;
  hold(it.call(&it, (char *)out, 9, &len) == SULDERKO_DONE && len == 4 && !memcmp(out, first, 4),
       it.name, 0);
  refused(&none, SULDERKO_NO_SESSION);
}

static void counts(void) {
  sulderko_conflicts it;
  size_t len;
  hold(sulderko_report(LOOSE, strlen(LOOSE), NULL, 0, &len, &it) == SULDERKO_DONE && len > 0,
       "counts", 0);
  hold(it.shift_reduce == 1 && it.reduce_reduce == 0, "counts", 1);
}

int main(int argc, char **argv) {
  size_t by = argc > 1 ? (size_t)atoi(argv[1]) : 1;
  const asked texts[] = {{"session", session, GRAMMAR, TOKENS},
                         {"table", table, GRAMMAR, ""},
                         {"report", report, GRAMMAR, ""},
                         {"code", code, GRAMMAR, ""},
                         {"tokens", tokens, GRAMMAR, TOKENS},
                         {"expected", expected, GRAMMAR, TOKENS}};
  size_t at;
  for (at = 0; at < sizeof texts / sizeof *texts; at++) {
    asked bad = texts[at];
    every_room(&bad, bad.call == tokens || bad.call == code ? sizeof(size_t) : by);
    bad.grammar = BROKEN;
    refused(&bad, SULDERKO_BAD_GRAMMAR);
    bad.grammar = GRAMMAR, bad.tokens = "NUM NIM";
    if (bad.call == session || bad.call == tokens || bad.call == expected)
      refused(&bad, SULDERKO_BAD_TOKENS);
  }
  verdicts();
  faults();
  arrays();
  counts();
  outlooks();
  printf("%lu passed, %lu failed\n", passed, failed);
  return failed != 0;
}
