/* Names for the numbers of a table of yacc: ydebug rules made them. */
#ifndef YD_RULES_b5f2db91
#define YD_RULES_b5f2db91

/* The digest of the table, for yd_read_checked. */
#define TABLE_DIGEST 0xb5f2db91UL

enum {
  RULE_lines_1 = 1, /* lines: (empty) */
  RULE_lines_2 = 2, /* lines: lines line '\012' */
  RULE_print = 3, /* line: sum */
  RULE_assign_action_1 = 4, /* $$1: (empty) */
  RULE_assign = 5, /* line: NAME '=' $$1 sum */
  RULE_line_3 = 6, /* line: error */
  RULE_sum_1 = 7, /* sum: NUMBER */
  RULE_add = 8, /* sum: sum '+' sum */
  RULE_subtract = 9, /* sum: sum '-' sum */
  RULE_multiply = 10 /* sum: sum '*' sum */
};

/* The numbers that a lexer gives. */
enum {
  TOKEN_NUMBER = 257,
  TOKEN_NAME = 258
};

#endif
