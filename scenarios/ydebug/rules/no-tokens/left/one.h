/* Names for the numbers of a table of yacc: ydebug rules made them. */
#ifndef YD_RULES_aa8201c4
#define YD_RULES_aa8201c4

/* The digest of the table, for yd_read_checked. */
#define TABLE_DIGEST 0xaa8201c4UL

enum {
  RULE_s_1 = 1 /* s: 'x' */
};

#endif
