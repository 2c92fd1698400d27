/* A calculator. The actions of its grammar stand here, by the names of their rules. These come from
   the grammar, as the table does:

       yacc calculator.y
       ydebug rules calculator.y --header calculator_rules.h
       cc -I. -o calculator calculator.c ydriver.c
       ./calculator y.tab < sums
*/
#include "calculator_rules.h"
#include "ydriver.h"

#include <ctype.h>
#include <stdio.h>
#include <stdlib.h>

enum { MOST = 1 << 20 };

static yd_value calculate(void *context, int rule, int left, const yd_entry *entry, size_t count) {
  double first = count ? entry[0].value.number : 0;
  double second = count > 1 ? entry[1].value.number : 0;
  double third = count > 2 ? entry[2].value.number : 0;
  yd_value value = {.number = first};
  (void)context, (void)left;
  switch (rule) {
    case RULE_print: printf("%g\n", first); break;
    case RULE_add: value.number = first + third; break;
    case RULE_subtract: value.number = first - third; break;
    case RULE_multiply: value.number = first * third; break;
    case RULE_divide: value.number = first / third; break;
    case RULE_negate: value.number = -second; break;
    case RULE_group: value.number = second; break;
  }
  return value;
}

static void complain(void *context, const yd_parser *parser, int token, yd_span line) {
  (void)context;
  printf("line %zu: %s can't come here\n", line.begin, yd_name(parser->table, token));
}

/* A lexer: the number of the next token, its value, and where the text goes on. */
static int next_token(char **text, yd_value *value) {
  while (**text == ' ' || **text == '\t') ++*text;
  if (!isdigit((unsigned char)**text)) return **text ? (unsigned char)*(*text)++ : 0;
  value->number = strtod(*text, text);
  return TOKEN_NUMBER;
}

static yd_result run(yd_parser *parser, char *text) {
  yd_span line = {1, 1};
  yd_value value = {0};
  yd_result result = YD_MORE;
  int number;
  while (result == YD_MORE && (number = next_token(&text, &value))) {
    result = yd_push(parser, yd_token(parser->table, number), value, line);
    if (number == '\n') line.begin++, line.end++;
  }
  return result == YD_MORE ? yd_finish(parser, line) : result;
}

static size_t read_file(FILE *file, char *text) {
  size_t length = file ? fread(text, 1, MOST - 1, file) : 0;
  text[length] = '\0';
  return length;
}

static int refuse(const yd_fault *fault) {
  if (fault->line) fprintf(stderr, "line %zu: ", fault->line);
  fprintf(stderr, "%s\n", fault->what);
  return 2;
}

int main(int words, char **word) {
  static char text[MOST];
  yd_fault fault;
  size_t length = read_file(words == 2 ? fopen(word[1], "rb") : NULL, text);
  yd_table *table = yd_read_checked(text, length, TABLE_DIGEST, &fault);
  if (!table) return refuse(&fault);
  yd_parser parser;
  yd_start(&parser, table, (yd_calls){.reduce = calculate, .error = complain});
  read_file(stdin, text);
  yd_result result = run(&parser, text);
  if (result == YD_NO_TOKEN) printf("no token begins here\n");
  yd_stop(&parser);
  yd_free(table);
  return result == YD_ACCEPTED ? 0 : 1;
}
