#include "ydriver.h"

#include <stdint.h>
#include <stdlib.h>
#include <string.h>

/* The limits of a grammar, and so of its table. */
enum { SYMBOLS = 4096, NUMBERS = 32767, RULES = 8192, LENGTH = 255, STATES = 16384 };
enum { END = 0, ERROR = 1 };

/* What a cell says: nothing, to accept, by which rule to reduce, or to which state to go. */
enum { NOTHING = 0, ACCEPT = 1 };
static uint16_t by(uint32_t rule) { return (uint16_t)(rule * 2 + 1); }
static uint16_t to(uint32_t state) { return (uint16_t)(state * 2 + 2); }
static int is_by(uint16_t says) { return says > ACCEPT && says % 2; }
static int is_to(uint16_t says) { return says > ACCEPT && says % 2 == 0; }
static int rule_of(uint16_t says) { return says / 2; }
static int state_of(uint16_t says) { return says / 2 - 1; }

/* Cells of one state, from the first symbol that has one to the last. Where there is none, `base` is
   what all of them say. */
typedef struct {
  uint32_t base;
  uint16_t first, count;
} row;

typedef struct {
  uint16_t left, length;
} rule;

/* A state has a row for tokens and one for nonterminals. */
struct yd_table {
  uint32_t symbols, tokens, rules, states;
  char **name;
  row *actions, *gotos;
  int32_t *number; /* of each token */
  rule *rule;
  uint16_t *cells;
};

/* ---- Reading ---- */

/* The text of a table. Its first fault stays. */
typedef struct {
  const char *text, *end;
  size_t line;
  const char *what;
} reader;

/* What a table holds; and the table itself, once it has its memory. */
typedef struct {
  uint32_t symbols, tokens, rules, states;
  size_t cells, names; /* how many of them, so far */
  char *free_name;
  yd_table *table;
} content;

static int refuse(reader *from, const char *what) {
  if (!from->what) from->what = what;
  return 0;
}

/* Passes over a word. */
static int take(reader *from, const char *word) {
  size_t length = strlen(word);
  if ((size_t)(from->end - from->text) < length || memcmp(from->text, word, length))
    return refuse(from, "something else is wanted here");
  from->text += length;
  return 1;
}

/* Whether this byte is next. */
static int sees(const reader *from, char byte) {
  return from->text < from->end && *from->text == byte;
}

static int take_newline(reader *from) {
  if (!take(from, "\n")) return 0;
  from->line++;
  return 1;
}

static int is_digit(const reader *from) {
  return from->text < from->end && *from->text >= '0' && *from->text <= '9';
}

/* Reads a number from `least` to `most`, without leading zeros. */
static int take_number(reader *from, uint32_t least, uint32_t most, uint32_t *number) {
  const char *first = from->text;
  for (*number = 0; is_digit(from) && from->text - first < 7; from->text++)
    *number = *number * 10 + (uint32_t)(*from->text - '0');
  if (from->text == first || is_digit(from) || (*first == '0' && from->text - first > 1))
    return refuse(from, "a number is wanted here");
  return *number >= least && *number <= most ? 1 : refuse(from, "this number is out of range");
}

/* Reads a number that is known. */
static int take_this(reader *from, uint32_t wanted) {
  uint32_t number;
  return take_number(from, wanted, wanted, &number);
}

/* Reads the line of a count. */
static int take_count(reader *from, const char *word, uint32_t least, uint32_t most,
                      uint32_t *count) {
  return take(from, word) && take_number(from, least, most, count) && take_newline(from);
}

/* The length of a name, which goes to the end of the line. */
static size_t name_length(const reader *from) {
  const char *at = from->text;
  while (at < from->end && *at >= ' ' && *at <= '~') at++;
  return (size_t)(at - from->text);
}

static int take_name(reader *from, content *found, uint32_t symbol) {
  size_t length = name_length(from);
  if (!length) return refuse(from, "a name is wanted here");
  if (found->table) {
    found->table->name[symbol] = found->free_name;
    memcpy(found->free_name, from->text, length);
    found->free_name[length] = '\0';
    found->free_name += length + 1;
  }
  found->names += length + 1;
  from->text += length;
  return take_newline(from);
}

static int take_token_number(reader *from, content *found, uint32_t symbol) {
  uint32_t number;
  if (found->tokens < symbol) return refuse(from, "a token stands after a nonterminal");
  if (!take(from, "t ") || !take_number(from, 0, NUMBERS, &number)) return 0;
  found->tokens = symbol + 1;
  if (found->table) found->table->number[symbol] = (int32_t)number;
  return 1;
}

/* Tokens come first, the end and `error` first among them. */
static int take_symbol(reader *from, content *found, uint32_t symbol) {
  if (!take_this(from, symbol) || !take(from, " ")) return 0;
  int is_read = symbol <= ERROR || sees(from, 't') ? take_token_number(from, found, symbol)
                                                   : take(from, "n -");
  return is_read && take(from, " ") && take_name(from, found, symbol);
}

static int take_rule(reader *from, content *found, uint32_t number) {
  uint32_t left, length;
  if (!take_this(from, number) || !take(from, " ")) return 0;
  if (!take_number(from, found->tokens, found->symbols - 1, &left)) return 0;
  if (!take(from, " ") || !take_number(from, 0, LENGTH, &length)) return 0;
  if (found->table) found->table->rule[number] = (rule){(uint16_t)left, (uint16_t)length};
  return take_newline(from);
}

/* Adds a cell to the end of a row, and those without anything to say that stand before it. */
static void add_cell(content *found, row *of, uint32_t symbol, uint16_t says) {
  if (!of->count) *of = (row){(uint32_t)found->cells, (uint16_t)symbol, 0};
  found->cells += symbol + 1 - of->first - of->count;
  of->count = (uint16_t)(symbol + 1 - of->first);
  if (found->table) found->table->cells[found->cells - 1] = says;
}

/* Reads what a cell of a token says. */
static int take_action(reader *from, const content *found, uint32_t symbol, uint16_t *says) {
  uint32_t number;
  *says = ACCEPT;
  if (symbol == END && sees(from, 'a')) return take(from, "acc");
  if (sees(from, 'r')) {
    if (!take(from, "r ") || !take_number(from, 1, found->rules - 1, &number)) return 0;
    *says = by(number);
    return 1;
  }
  if (symbol == END) return refuse(from, "the end is not shifted");
  if (!take(from, "s ") || !take_number(from, 0, found->states - 1, &number)) return 0;
  *says = to(number);
  return 1;
}

/* A line of a state: its letter, its state, its symbol, and what it says. */
typedef struct {
  char letter;
  uint32_t state, symbol;
  uint16_t says;
} line;

/* Lines go by states; in one, `d` alone or `a` by symbols, and then `g` by symbols. */
static int is_behind(const line *last, const line *next) {
  if (next->state != last->state || !last->letter) return next->state >= last->state;
  if (next->letter != last->letter) return next->letter == 'g';
  return next->letter != 'd' && next->symbol > last->symbol;
}

static int take_action_line(reader *from, const content *found, line *next) {
  return take_number(from, 0, found->tokens - 1, &next->symbol) && take(from, " ") &&
         take_action(from, found, next->symbol, &next->says);
}

static int take_default_line(reader *from, const content *found, line *next) {
  uint32_t number = 0;
  if (!take_number(from, 1, found->rules - 1, &number)) return 0;
  next->says = by(number);
  return 1;
}

static int take_goto_line(reader *from, const content *found, line *next) {
  uint32_t number = 0;
  if (!take_number(from, found->tokens, found->symbols - 1, &next->symbol)) return 0;
  if (!take(from, " ") || !take_number(from, 0, found->states - 1, &number)) return 0;
  next->says = to(number);
  return 1;
}

static int take_state_line(reader *from, const content *found, line *next) {
  next->letter = from->text < from->end ? *from->text : '\0';
  if (next->letter != 'a' && next->letter != 'd' && next->letter != 'g')
    return refuse(from, "a line of a state, or the end, is wanted here");
  from->text++;
  if (!take(from, " ") || !take_number(from, 0, found->states - 1, &next->state)) return 0;
  if (!take(from, " ")) return 0;
  if (next->letter == 'a') return take_action_line(from, found, next);
  return next->letter == 'd' ? take_default_line(from, found, next)
                             : take_goto_line(from, found, next);
}

/* Keeps a line. Without a table, the row that it belongs to is `open`, and is only counted. */
static void keep(content *found, row *open, const line *last, const line *next) {
  yd_table *table = found->table;
  if (next->state != last->state || next->letter != last->letter) *open = (row){0, 0, 0};
  if (next->letter != 'd') add_cell(found, open, next->symbol, next->says);
  if (next->letter == 'd') open->base = next->says;
  if (table) (next->letter == 'g' ? table->gotos : table->actions)[next->state] = *open;
}

static int take_states(reader *from, content *found) {
  line last = {0}, next = {0};
  row open = {0};
  for (; !sees(from, 'e'); last = next) {
    if (!take_state_line(from, found, &next)) return 0;
    if (!is_behind(&last, &next)) return refuse(from, "this line is out of order");
    keep(found, &open, &last, &next);
    if (!take_newline(from)) return 0;
  }
  return 1;
}

/* Reads a whole table. */
static int take_table(reader *from, content *found) {
  if (!take(from, "table 2") || !take_newline(from)) return 0;
  if (!take_count(from, "symbols ", 4, SYMBOLS, &found->symbols)) return 0;
  for (uint32_t at = 0; at < found->symbols; at++)
    if (!take_symbol(from, found, at)) return 0;
  if (found->tokens == found->symbols) return refuse(from, "there is no nonterminal");
  if (!take_count(from, "rules ", 2, RULES, &found->rules)) return 0;
  for (uint32_t at = 0; at < found->rules; at++)
    if (!take_rule(from, found, at)) return 0;
  if (!take_count(from, "states ", 1, STATES, &found->states)) return 0;
  if (!take_states(from, found) || !take(from, "end") || !take_newline(from)) return 0;
  return from->text == from->end ? 1 : refuse(from, "there is more after the end");
}

/* A table without content, of this size, in one block. */
static yd_table *room_for(const content *found) {
  size_t symbols = found->symbols, rules = found->rules, states = found->states;
  size_t bytes = sizeof(yd_table) + symbols * (sizeof(char *) + sizeof(int32_t)) +
                 2 * states * sizeof(row) + rules * sizeof(rule) +
                 found->cells * sizeof(uint16_t) + found->names;
  yd_table *table = calloc(1, bytes);
  if (!table) return NULL;
  *table = (yd_table){found->symbols, found->tokens, found->rules, found->states,
                      NULL, NULL, NULL, NULL, NULL, NULL};
  table->name = (char **)(table + 1);
  table->actions = (row *)(table->name + symbols);
  table->gotos = table->actions + states;
  table->number = (int32_t *)(table->gotos + states);
  table->rule = (rule *)(table->number + symbols);
  table->cells = (uint16_t *)(table->rule + rules);
  return table;
}

static yd_table *refused(yd_fault *fault, size_t line, const char *what) {
  if (fault) *fault = (yd_fault){line, what};
  return NULL;
}

yd_table *yd_read(const char *text, size_t length, yd_fault *fault) {
  reader first = {text, text + length, 1, NULL}, second = first;
  content found = {0}, filled = {0};
  if (!take_table(&first, &found)) return refused(fault, first.line, first.what);
  filled.table = room_for(&found);
  if (!filled.table) return refused(fault, 0, "no memory");
  filled.free_name = (char *)(filled.table->cells + found.cells);
  take_table(&second, &filled);
  return filled.table;
}

/* The remainder with one byte more. */
static uint32_t with_byte(uint32_t rest, unsigned char byte) {
  rest ^= byte;
  for (int bit = 0; bit < 8; bit++) rest = rest >> 1 ^ (rest & 1 ? 0xedb88320u : 0);
  return rest;
}

unsigned long yd_digest(const char *text, size_t length) {
  uint32_t rest = UINT32_MAX;
  for (size_t at = 0; at < length; at++) rest = with_byte(rest, (unsigned char)text[at]);
  return rest ^ UINT32_MAX;
}

yd_table *yd_read_checked(const char *text, size_t length, unsigned long digest, yd_fault *fault) {
  yd_table *table = yd_read(text, length, fault);
  if (!table || yd_digest(text, length) == digest) return table;
  yd_free(table);
  return refused(fault, 0, "the names of its rules were made for another table");
}

void yd_free(yd_table *table) { free(table); }

int yd_find(const yd_table *table, const char *name) {
  for (uint32_t at = 0; at < table->symbols; at++)
    if (!strcmp(table->name[at], name)) return (int)at;
  return -1;
}

int yd_token(const yd_table *table, int number) {
  for (uint32_t at = 0; at < table->tokens; at++)
    if (table->number[at] == number) return (int)at;
  return -1;
}

const char *yd_name(const yd_table *table, int symbol) {
  return symbol >= 0 && (uint32_t)symbol < table->symbols ? table->name[symbol] : NULL;
}

/* ---- Parsing ---- */

/* A step was made, and the token ahead is still there; no step could be made; see yd_result. */
typedef enum { STEPPED, TAKEN, ENDED, NO_MEMORY, BROKEN } outcome;

/* The token ahead. */
typedef struct {
  int token;
  yd_value value;
  yd_span span;
} ahead;

static uint16_t cell_of(const yd_table *table, const row *of, int symbol) {
  uint32_t at = (uint32_t)symbol - of->first;
  if (at < of->count) return table->cells[of->base + at];
  return of->count ? NOTHING : (uint16_t)of->base;
}

static uint16_t action_of(const yd_parser *parser, int token) {
  return cell_of(parser->table, &parser->table->actions[parser->top->state], token);
}

static int is_full(const yd_parser *parser) { return parser->top == parser->last; }

/* The entries and, after them, as many states stand in one block. */
static int grow(yd_parser *parser) {
  size_t used = parser->stack ? (size_t)(parser->last - parser->stack) + 1 : 0;
  size_t room = used ? used * 2 : 64;
  if (room > SIZE_MAX / (sizeof(yd_entry) + sizeof(int))) return 0;
  yd_entry *stack = realloc(parser->stack, room * (sizeof *stack + sizeof(int)));
  if (!stack) return 0;
  if (!used) memset(stack, 0, sizeof *stack);
  parser->lost_states = (int *)(stack + room);
  memmove(parser->lost_states, stack + used, parser->lost * sizeof(int));
  parser->top = stack + (used ? parser->top - parser->stack : 0);
  parser->stack = stack;
  parser->last = stack + room - 1;
  return 1;
}

/* The stack is what it is after a token. */
static void keep_all(yd_parser *parser) {
  parser->kept = (size_t)(parser->top - parser->stack);
  parser->lost = 0;
}

/* Before a reduction takes entries off: keeps the states that were there when the token came. */
static void keep_states(yd_parser *parser, size_t count) {
  size_t left = (size_t)(parser->top - parser->stack) - count;
  for (; parser->kept > left; parser->kept--)
    parser->lost_states[parser->lost++] = parser->stack[parser->kept].state;
}

static void tell(yd_parser *parser, yd_kind kind, int number) {
  parser->spent++;
  if (parser->calls.step) parser->calls.step(parser->calls.context, kind, number);
}

static void drop(yd_parser *parser, int symbol, yd_value value, yd_span span) {
  if (parser->calls.drop) parser->calls.drop(parser->calls.context, symbol, value, span);
}

static outcome shift(yd_parser *parser, const ahead *next, int state) {
  if (is_full(parser) && !grow(parser)) return NO_MEMORY;
  yd_value value = next->value;
  const yd_calls *calls = &parser->calls;
  if (calls->shift) value = calls->shift(calls->context, next->token, value, next->span);
  *++parser->top = (yd_entry){state, next->token, value, next->span};
  if (parser->counter) parser->counter--;
  tell(parser, YD_SHIFT, next->token);
  return TAKEN;
}

/* From where the first of the entries begins to where the last one ends. */
static yd_span span_of(const yd_entry *entries, size_t count) {
  if (!count) return (yd_span){entries[-1].span.end, entries[-1].span.end};
  return (yd_span){entries->span.begin, entries[count - 1].span.end};
}

static yd_value value_of(const yd_calls *calls, int number, rule with, const yd_entry *entries) {
  if (calls->reduce)
    return calls->reduce(calls->context, number, with.left, entries, with.length);
  return with.length ? entries->value : (yd_value){0};
}

static outcome reduce(yd_parser *parser, int number) {
  const yd_table *table = parser->table;
  rule with = table->rule[number];
  if (with.length > parser->top - parser->stack) return BROKEN;
  uint16_t says = cell_of(table, &table->gotos[(parser->top - with.length)->state], with.left);
  if (says == NOTHING) return BROKEN;
  if (!with.length && is_full(parser) && !grow(parser)) return NO_MEMORY;
  keep_states(parser, with.length);
  yd_entry *first = parser->top - with.length + 1;
  yd_value value = value_of(&parser->calls, number, with, first);
  *first = (yd_entry){state_of(says), with.left, value, span_of(first, with.length)};
  parser->top = first;
  tell(parser, YD_REDUCE, number);
  return STEPPED;
}

static outcome detect(yd_parser *parser, const ahead *next) {
  const yd_calls *calls = &parser->calls;
  if (!parser->counter) {
    parser->errors++;
    if (calls->error) calls->error(calls->context, parser, next->token, next->span);
  }
  parser->counter = 3;
  parser->mode = YD_POPPING;
  parser->lost_begin = next->span.begin;
  tell(parser, YD_DETECT, next->token);
  return STEPPED;
}

static outcome end_as(yd_parser *parser, yd_mode mode, yd_kind kind, const ahead *next) {
  parser->mode = mode;
  tell(parser, kind, next->token);
  return ENDED;
}

/* At an error with the counter at 3. */
static outcome discard(yd_parser *parser, const ahead *next) {
  if (next->token == END) return end_as(parser, YD_GIVEN_UP, YD_FAIL, next);
  drop(parser, next->token, next->value, next->span);
  tell(parser, YD_DISCARD, next->token);
  return TAKEN;
}

static outcome shift_error(yd_parser *parser, const ahead *next, int state) {
  if (is_full(parser) && !grow(parser)) return NO_MEMORY;
  yd_span span = {parser->lost_begin, next->span.end};
  *++parser->top = (yd_entry){state, ERROR, (yd_value){0}, span};
  parser->mode = YD_RUNNING;
  tell(parser, YD_SHIFT_ERROR, next->token);
  return STEPPED;
}

static outcome pop(yd_parser *parser, const ahead *next) {
  uint16_t says = action_of(parser, ERROR);
  if (is_to(says)) return shift_error(parser, next, state_of(says));
  if (parser->top == parser->stack) return end_as(parser, YD_GIVEN_UP, YD_FAIL, next);
  yd_entry top = *parser->top--;
  keep_all(parser);
  parser->lost_begin = top.span.begin;
  drop(parser, top.symbol, top.value, top.span);
  tell(parser, YD_POP, top.symbol);
  return STEPPED;
}

/* Does what the cell of the token ahead says. */
static outcome act(yd_parser *parser, const ahead *next, uint16_t says) {
  if (is_by(says)) return reduce(parser, rule_of(says));
  if (is_to(says)) return shift(parser, next, state_of(says));
  if (says == NOTHING) return parser->counter < 3 ? detect(parser, next) : discard(parser, next);
  int is_whole = parser->top - parser->stack == 1;
  return is_whole ? end_as(parser, YD_DONE, YD_ACCEPT, next) : BROKEN;
}

static outcome step(yd_parser *parser, const ahead *next) {
  if (parser->mode == YD_POPPING) return pop(parser, next);
  return act(parser, next, action_of(parser, next->token));
}

/* Makes the reductions that need no token ahead. One that can't be made is left to the next
   token. */
static void settle(yd_parser *parser) {
  const row *actions = &parser->table->actions[parser->top->state];
  while (!actions->count && actions->base != NOTHING && parser->spent < parser->limit) {
    if (reduce(parser, rule_of((uint16_t)actions->base)) != STEPPED) break;
    actions = &parser->table->actions[parser->top->state];
  }
}

static yd_result result_of(const yd_parser *parser, outcome made) {
  if (made == NO_MEMORY) return YD_NO_MEMORY;
  if (made == BROKEN) return YD_BROKEN;
  if (parser->mode == YD_DONE) return YD_ACCEPTED;
  return parser->mode == YD_GIVEN_UP ? YD_FAILED : YD_LIMIT;
}

static yd_result push(yd_parser *parser, const ahead *next) {
  outcome made = parser->mode < YD_DONE ? STEPPED : ENDED;
  if (!parser->stack && !grow(parser)) return YD_NO_MEMORY;
  while (made == STEPPED && parser->spent < parser->limit) made = step(parser, next);
  if (made != TAKEN) return result_of(parser, made);
  parser->spent = 0;
  settle(parser);
  keep_all(parser);
  return YD_MORE;
}

void yd_start(yd_parser *parser, const yd_table *table, yd_calls calls) {
  memset(parser, 0, sizeof *parser);
  parser->table = table;
  parser->calls = calls;
  parser->limit = 1000000;
}

yd_result yd_push(yd_parser *parser, int token, yd_value value, yd_span span) {
  ahead next = {token, value, span};
  if (token <= ERROR || (uint32_t)token >= parser->table->tokens) return YD_NO_TOKEN;
  return push(parser, &next);
}

yd_result yd_finish(yd_parser *parser, yd_span span) {
  ahead next = {END, {0}, span};
  return push(parser, &next);
}

void yd_stop(yd_parser *parser) {
  for (; parser->top > parser->stack; parser->top--)
    drop(parser, parser->top->symbol, parser->top->value, parser->top->span);
  free(parser->stack);
  parser->stack = parser->top = parser->last = NULL;
  parser->kept = parser->lost = 0;
}

/* ---- Tokens that can come ---- */

enum { FOR_A_TOKEN = 100000, FOR_ALL = 10000000 };

/* A stack of states that is tried: some of those that were there, and others above them. */
typedef struct {
  const yd_parser *parser;
  size_t below; /* the place of the last of those that were there */
  int *above;
  size_t count, room;
  uint32_t left; /* how many more reductions may be made */
} trial;

/* What becomes of a token that is tried. */
typedef enum { CANNOT, CAN, REDUCED, OUT_OF_MEMORY } answer;

/* The state at a place, as it was when the token ahead came. */
static int state_at(const yd_parser *parser, size_t place) {
  if (!parser->stack) return 0;
  if (place <= parser->kept) return parser->stack[place].state;
  return parser->lost_states[parser->lost - (place - parser->kept)];
}

static int state_of_trial(const trial *of) {
  return of->count ? of->above[of->count - 1] : state_at(of->parser, of->below);
}

/* Takes so many states off; 0 where there are fewer. */
static int take_off(trial *of, size_t count) {
  size_t deeper = count > of->count ? count - of->count : 0;
  if (deeper > of->below) return 0;
  of->count -= count - deeper;
  of->below -= deeper;
  return 1;
}

static int has_room(trial *of) {
  if (of->count < of->room) return 1;
  size_t room = of->room ? of->room * 2 : 64;
  int *above = realloc(of->above, room * sizeof *above);
  if (!above) return 0;
  of->above = above;
  of->room = room;
  return 1;
}

static answer reduce_trial(trial *of, int number) {
  const yd_table *table = of->parser->table;
  rule with = table->rule[number];
  if (!of->left || !take_off(of, with.length)) return CANNOT;
  uint16_t says = cell_of(table, &table->gotos[state_of_trial(of)], with.left);
  if (says == NOTHING) return CANNOT;
  if (!has_room(of)) return OUT_OF_MEMORY;
  of->left--;
  of->above[of->count++] = state_of(says);
  return REDUCED;
}

static answer ask(trial *of, int token) {
  const yd_table *table = of->parser->table;
  uint16_t says = cell_of(table, &table->actions[state_of_trial(of)], token);
  if (is_by(says)) return reduce_trial(of, rule_of(says));
  return says == NOTHING ? CANNOT : CAN;
}

/* Tries a token from the stack as it was. */
static answer try_token(trial *of, int token) {
  answer found = REDUCED;
  of->below = of->parser->kept + of->parser->lost;
  of->count = 0;
  for (int made = 0; found == REDUCED && made <= FOR_A_TOKEN; made++) found = ask(of, token);
  return found == REDUCED ? CANNOT : found;
}

size_t yd_expected(const yd_parser *parser, int *tokens, size_t room) {
  trial of = {parser, 0, NULL, 0, 0, FOR_ALL};
  size_t count = 0;
  answer found = CANNOT;
  for (int token = 0; (uint32_t)token < parser->table->tokens && found != OUT_OF_MEMORY; token++) {
    found = token == ERROR ? CANNOT : try_token(&of, token);
    if (found == CAN && count++ < room) tokens[count - 1] = token;
  }
  free(of.above);
  return found == OUT_OF_MEMORY ? YD_UNKNOWN : count;
}
