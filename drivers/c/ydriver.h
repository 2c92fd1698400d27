/* A driver for the tables that `yacc` writes (y.tab). A table is read once, and any number of
   parsers take tokens by it, one at a time. C99, no dependency, no state of its own.

   docs/FORMATS.md has the format of a table, and what the steps of a parse are. */
#ifndef YDRIVER_H
#define YDRIVER_H

#include <stddef.h>

#ifdef __cplusplus
extern "C" {
#endif

/* What a caller keeps with a symbol. */
typedef union {
  long integer;
  double number;
  void *pointer;
} yd_value;

/* Where a symbol stands in the input, in bytes, lines or whatever the caller counts. That of a left
   side goes from where its first entry begins to where its last one ends; without entries it stands
   where the entry below ends. That of `error` goes from the first entry that was popped to the token
   that could not come. */
typedef struct {
  size_t begin, end;
} yd_span;

/* An entry of the stack. */
typedef struct {
  int state;
  int symbol;
  yd_value value;
  yd_span span;
} yd_entry;

/* A table, in one block of memory. Parsers only read it. */
typedef struct yd_table yd_table;

/* Why a table is refused. The line counts from 1; it is 0 where there is no memory, and where the
   digest is another. */
typedef struct {
  size_t line;
  const char *what;
} yd_fault;

/* The step that was made, with its number: the symbol of a shift, a pop or a discard, the rule of a
   reduction, the token ahead of the others. */
typedef enum {
  YD_SHIFT, YD_REDUCE, YD_ACCEPT, YD_DETECT, YD_POP, YD_SHIFT_ERROR, YD_DISCARD, YD_FAIL
} yd_kind;

/* What became of a token. */
typedef enum {
  YD_MORE,      /* it is taken, and the next one can come */
  YD_ACCEPTED,  /* the input is accepted, maybe after errors */
  YD_FAILED,    /* an error that recovery could not get past */
  YD_NO_TOKEN,  /* it is no token that an input can have; nothing was done */
  YD_NO_MEMORY, /* the stack could not grow; the same call goes on from there */
  YD_LIMIT,     /* more steps than the limit, and it is not taken yet */
  YD_BROKEN     /* the table has no state for what it says itself */
} yd_result;

typedef struct yd_parser yd_parser;

/* What a caller wants to be told. Each call may be left out (NULL). */
typedef struct {
  void *context;
  /* A token goes on the stack; with this value. Left out: with its own value. */
  yd_value (*shift)(void *context, int token, yd_value value, yd_span span);
  /* A rule replaces `count` entries by its left side; with this value. Left out: with the value of
     the first entry. */
  yd_value (*reduce)(void *context, int rule, int left, const yd_entry *entries, size_t count);
  /* An error is reported: this token cannot come. Here yd_expected says which tokens could. */
  void (*error)(void *context, const yd_parser *parser, int token, yd_span span);
  /* An entry or a token is given up, and its value with it. */
  void (*drop)(void *context, int symbol, yd_value value, yd_span span);
  /* A step was made. */
  void (*step)(void *context, yd_kind kind, int number);
} yd_calls;

typedef enum { YD_RUNNING, YD_POPPING, YD_DONE, YD_GIVEN_UP } yd_mode;

/* A parse. Its fields are for reading, apart from `limit`, which may be set at any time. */
struct yd_parser {
  const yd_table *table;
  yd_calls calls;
  /* NULL before the first token. stack[0] is the bottom, with state 0; entries go up to `top`. */
  yd_entry *stack, *top, *last;
  yd_mode mode;
  int counter;       /* 3 after an error, and one less for each token that is shifted */
  size_t errors;     /* the errors that were reported */
  size_t spent;      /* the steps since the last token was taken */
  size_t limit;      /* the most of them; 1,000,000 unless set */
  size_t lost_begin; /* where what recovery took begins */
  /* The stack as it was when the token ahead came: its entries up to stack[kept] are there still,
     and above them these states were, the last one lowest. */
  size_t kept, lost;
  int *lost_states;
};

/* Reads a table. NULL where it is refused; `fault`, unless it is NULL, then says why. */
yd_table *yd_read(const char *text, size_t length, yd_fault *fault);
/* The same, and a table with another digest is refused too: so the numbers of rules are those of
   the header that has this digest as its TABLE_DIGEST (`ydebug rules --header`). */
yd_table *yd_read_checked(const char *text, size_t length, unsigned long digest, yd_fault *fault);
/* The digest of a table: the CRC-32 of its text, as gzip and zip have it. */
unsigned long yd_digest(const char *text, size_t length);
void yd_free(yd_table *table);

/* The symbol of this printed name (NUM, '+'), or -1. */
int yd_find(const yd_table *table, const char *name);
/* The token of this number, as an input's lexer hands them out, or -1. */
int yd_token(const yd_table *table, int number);
/* The printed name of a symbol, or NULL. */
const char *yd_name(const yd_table *table, int symbol);

/* Begins a parse. It takes no memory. */
void yd_start(yd_parser *parser, const yd_table *table, yd_calls calls);
/* Takes a token with its value: makes steps up to the one that takes it, and then the reductions
   that need no token ahead. */
yd_result yd_push(yd_parser *parser, int token, yd_value value, yd_span span);
/* Ends the input. The value of an accepted one is that of parser->stack[1]. */
yd_result yd_finish(yd_parser *parser, yd_span span);
/* Writes the tokens that can come, by number and at most `room`, and says how many there are: each is
   tried on the stack as it was after the last token that was taken, so none is listed that would be
   an error, also where the reductions that a wrong token allowed are made already. It is for the
   call of an error, and for the time between two tokens. A token that takes over 100,000 reductions
   counts as one that cannot come. YD_UNKNOWN where memory runs out. */
#define YD_UNKNOWN ((size_t)-1)
size_t yd_expected(const yd_parser *parser, int *tokens, size_t room);
/* Drops what is on the stack, and gives its memory back. */
void yd_stop(yd_parser *parser);

#ifdef __cplusplus
}
#endif

#endif
