#include "ydmessages.h"

#include <stdint.h>
#include <stdlib.h>
#include <string.h>

enum { SYMBOLS = 4096, STATES = 16384, LONGEST = 16777216, MOST_NUMBER = 99, MOST_NAMED = 20 };

/* A piece of a message: bytes; an entry of the stack, 0 for the token; or the tokens that could
   come. */
typedef enum { TEXT, ENTRY, EXPECTED } kind;

typedef struct {
  kind kind;
  uint32_t state;
  uint32_t number; /* of an entry, or how many bytes there are */
  const char *text;
} piece;

/* What a symbol is called. */
typedef struct {
  uint32_t symbol;
  uint32_t length;
  const char *text;
} spelling;

struct yd_messages {
  size_t count, spellings;
  piece *pieces;     /* by states */
  spelling *spelled; /* by symbols */
};

/* ---- Reading ---- */

/* The text. Its first fault stays. */
typedef struct {
  const char *text, *end;
  size_t line;
  const char *what;
} reader;

/* What is read so far, and where it goes, once that has its memory. */
typedef struct {
  size_t count, spellings, bytes;
  uint32_t state;
  int has_state;
  uint32_t symbol; /* the one after the last that was spelled */
  yd_messages *messages;
  char *free_text;
} content;

static int refuse(reader *from, const char *what) {
  if (!from->what) from->what = what;
  return 0;
}

static int sees(const reader *from, const char *word) {
  size_t length = strlen(word);
  return (size_t)(from->end - from->text) >= length && !memcmp(from->text, word, length);
}

static int take(reader *from, const char *word) {
  if (!sees(from, word)) return refuse(from, "something else is wanted here");
  from->text += strlen(word);
  return 1;
}

static int take_newline(reader *from) {
  if (!take(from, "\n")) return 0;
  from->line++;
  return 1;
}

static int is_digit(const reader *from) {
  return from->text < from->end && *from->text >= '0' && *from->text <= '9';
}

/* Reads a number up to `most`, without leading zeros. */
static int take_number(reader *from, uint64_t most, uint64_t *number) {
  const char *first = from->text;
  for (*number = 0; is_digit(from) && from->text - first < 10; from->text++)
    *number = *number * 10 + (uint64_t)(*from->text - '0');
  if (from->text == first || is_digit(from) || (*first == '0' && from->text - first > 1))
    return refuse(from, "a number is wanted here");
  return *number <= most ? 1 : refuse(from, "this number is out of range");
}

static void add(content *found, piece read) {
  read.state = found->state;
  if (found->messages) found->messages->pieces[found->count] = read;
  found->count++;
}

/* Reads bytes, which may have newlines among them, and keeps them. */
static int take_bytes(reader *from, content *found, uint32_t *count, const char **text) {
  uint64_t length;
  if (!take_number(from, LONGEST, &length) || !take(from, " ")) return 0;
  if ((uint64_t)(from->end - from->text) < length) return refuse(from, "there are fewer bytes");
  if (found->messages) memcpy(found->free_text, from->text, length);
  *count = (uint32_t)length;
  *text = found->free_text;
  if (found->messages) found->free_text += length;
  found->bytes += length;
  for (uint64_t at = 0; at < length; at++) from->line += from->text[at] == '\n';
  from->text += length;
  return 1;
}

static int take_text(reader *from, content *found) {
  piece read = {TEXT, 0, 0, NULL};
  if (!take_bytes(from, found, &read.number, &read.text)) return 0;
  add(found, read);
  return take_newline(from);
}

/* Reads what a symbol is called, which is after the last one, and before all states. */
static int take_spelling(reader *from, content *found) {
  uint64_t symbol;
  spelling read;
  if (!take_number(from, SYMBOLS - 1, &symbol)) return 0;
  if (found->has_state || symbol < found->symbol) return refuse(from, "this line is out of order");
  if (!take(from, " ") || !take_bytes(from, found, &read.length, &read.text)) return 0;
  read.symbol = (uint32_t)symbol;
  found->symbol = read.symbol + 1;
  if (found->messages) found->messages->spelled[found->spellings] = read;
  found->spellings++;
  return take_newline(from);
}

static int take_entry(reader *from, content *found) {
  uint64_t number;
  if (!take_number(from, MOST_NUMBER, &number)) return 0;
  add(found, (piece){ENTRY, 0, (uint32_t)number, NULL});
  return take_newline(from);
}

/* Reads the state of the pieces that follow, which is after the last one. */
static int take_state(reader *from, content *found) {
  uint64_t state;
  if (!take_number(from, STATES - 1, &state)) return 0;
  if (found->has_state && state <= found->state) return refuse(from, "this line is out of order");
  found->has_state = 1;
  found->state = (uint32_t)state;
  return take_newline(from);
}

static int take_line(reader *from, content *found) {
  if (sees(from, "sp")) return take(from, "spelled ") && take_spelling(from, found);
  if (sees(from, "s")) return take(from, "state ") && take_state(from, found);
  if (!found->has_state) return refuse(from, "a state is wanted here");
  if (sees(from, "t")) return take(from, "text ") && take_text(from, found);
  if (sees(from, "v")) return take(from, "value ") && take_entry(from, found);
  if (!take(from, "expected")) return 0;
  add(found, (piece){EXPECTED, 0, 0, NULL});
  return take_newline(from);
}

static int take_messages(reader *from, content *found, unsigned long digest) {
  uint64_t made_for;
  if (!take(from, "messages 1") || !take_newline(from) || !take(from, "table ")) return 0;
  if (!take_number(from, UINT32_MAX, &made_for)) return 0;
  if (made_for != digest) return refuse(from, "these messages were made for another table");
  if (!take_newline(from)) return 0;
  while (!sees(from, "en"))
    if (!take_line(from, found)) return 0;
  if (!take(from, "end") || !take_newline(from)) return 0;
  return from->text == from->end ? 1 : refuse(from, "there is more after the end");
}

static yd_messages *room_for(const content *found) {
  size_t pieces = found->count * sizeof(piece), spelled = found->spellings * sizeof(spelling);
  yd_messages *messages = malloc(sizeof *messages + pieces + spelled + found->bytes);
  if (!messages) return NULL;
  *messages = (yd_messages){found->count, found->spellings, (piece *)(messages + 1), NULL};
  messages->spelled = (spelling *)(messages->pieces + found->count);
  return messages;
}

static yd_messages *refused(yd_fault *fault, size_t line, const char *what) {
  if (fault) *fault = (yd_fault){line, what};
  return NULL;
}

yd_messages *yd_read_messages(const char *text, size_t length, unsigned long digest,
                              yd_fault *fault) {
  reader first = {text, text + length, 1, NULL}, second = first;
  content found = {0}, filled = {0};
  if (!take_messages(&first, &found, digest)) return refused(fault, first.line, first.what);
  filled.messages = room_for(&found);
  if (!filled.messages) return refused(fault, 0, "no memory");
  filled.free_text = (char *)(filled.messages->spelled + found.spellings);
  take_messages(&second, &filled, digest);
  return filled.messages;
}

void yd_free_messages(yd_messages *messages) { free(messages); }

/* ---- Writing ---- */

/* What a message is filled with, and where it goes. */
typedef struct {
  const yd_messages *messages;
  const yd_parser *parser;
  int token;
  yd_span span;
  yd_show show;
  void *context;
  char *buffer;
  size_t size, length;
  const int *tokens; /* those that could come */
  size_t count;
} filling;

static void put(filling *to, const char *text, size_t length) {
  size_t room = to->length < to->size ? to->size - to->length : 0;
  memcpy(to->buffer + (room ? to->length : 0), text, length < room ? length : room);
  to->length += length;
}

static void put_word(filling *to, const char *word) { put(to, word, strlen(word)); }

/* What a symbol is called; NULL where that is its name. */
static const spelling *spelling_of(const yd_messages *messages, int symbol) {
  size_t low = 0, high = messages ? messages->spellings : 0;
  while (low < high) {
    size_t middle = low + (high - low) / 2;
    if ((int)messages->spelled[middle].symbol < symbol) low = middle + 1;
    else high = middle;
  }
  if (!messages || low == messages->spellings) return NULL;
  return (int)messages->spelled[low].symbol == symbol ? &messages->spelled[low] : NULL;
}

/* What people call a symbol without a spelling: by its name, but for the end and a newline. */
static const char *plain_of(const char *name) {
  if (!strcmp(name, "$end")) return "end of input";
  return strcmp(name, "'\\012'") ? name : "end of line";
}

static void put_called(filling *to, int symbol) {
  const spelling *called = spelling_of(to->messages, symbol);
  if (called) put(to, called->text, called->length);
  else put_word(to, plain_of(yd_name(to->parser->table, symbol)));
}

/* Writes a symbol: what stands in the input for it, or what it is called. */
static void put_symbol(filling *to, int symbol, yd_span span) {
  size_t length = 0;
  const char *text = to->show ? to->show(to->context, symbol, span, &length) : NULL;
  if (text) put(to, text, length);
  else put_called(to, symbol);
}

/* Writes the token, or an entry of the stack from the top; nothing where there is none. */
static void put_entry(filling *to, size_t number) {
  const yd_parser *parser = to->parser;
  size_t depth = parser->stack ? (size_t)(parser->top - parser->stack) : 0;
  if (!number) {
    put_symbol(to, to->token, to->span);
  } else if (number <= depth) {
    const yd_entry *entry = parser->top - (number - 1);
    put_symbol(to, entry->symbol, entry->span);
  }
}

/* Writes the first tokens that could come as a list, and dots where there are more. */
static void put_expected(filling *to) {
  for (size_t at = 0; at < to->count && at < MOST_NAMED; at++) {
    int is_last = at + 1 == to->count && to->count <= MOST_NAMED;
    if (at) put_word(to, is_last ? " or " : ", ");
    put_called(to, to->tokens[at]);
  }
  if (to->count > MOST_NAMED) put_word(to, ", ..");
}

static void put_piece(filling *to, const piece *of) {
  switch (of->kind) {
    case TEXT: put(to, of->text, of->number); break;
    case ENTRY: put_entry(to, of->number); break;
    case EXPECTED: put_expected(to); break;
  }
}

/* What is said where there is no message of its own. */
static void put_plain(filling *to) {
  put_word(to, "unexpected ");
  put_entry(to, 0);
  put_word(to, to->count ? ", expected " : "; no token can come");
  put_expected(to);
}

/* The first piece of a state, or where it would be. */
static size_t first_of(const yd_messages *messages, uint32_t state) {
  size_t low = 0, high = messages ? messages->count : 0;
  while (low < high) {
    size_t middle = low + (high - low) / 2;
    if (messages->pieces[middle].state < state) low = middle + 1;
    else high = middle;
  }
  return low;
}

static void put_message(filling *to) {
  const yd_messages *messages = to->messages;
  uint32_t state = to->parser->stack ? (uint32_t)to->parser->top->state : 0;
  size_t at = first_of(messages, state), first = at;
  for (; messages && at < messages->count && messages->pieces[at].state == state; at++)
    put_piece(to, &messages->pieces[at]);
  if (at == first) put_plain(to);
}

size_t yd_message(const yd_messages *messages, const yd_parser *parser, int token, yd_span span,
                  yd_show show, void *context, char *buffer, size_t size) {
  int few[MOST_NAMED];
  filling to = {.messages = messages, .parser = parser, .token = token, .span = span,
                .show = show, .context = context, .buffer = buffer, .size = size ? size - 1 : 0,
                .tokens = few};
  to.count = yd_expected(parser, few, MOST_NAMED);
  if (to.count == YD_UNKNOWN) return YD_UNKNOWN;
  put_message(&to);
  if (size) buffer[to.length < size ? to.length : size - 1] = '\0';
  return to.length;
}
